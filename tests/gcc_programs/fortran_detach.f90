! Detached tasks of Fortran, whose events are fulfilled inside, by another task, and by their creator.
program fortran_detach
   use omp_lib
   implicit none
   integer(omp_event_handle_kind) :: early, late, other, waiting
   integer :: total
   total = 0
   !$omp parallel
   !$omp single
   !$omp taskgroup
   !$omp task detach(early)
   call omp_fulfill_event(early)
   !$omp atomic
   total = total + 1
   !$omp end task
   !$omp task detach(late) depend(out: waiting)
   waiting = late
   !$omp atomic
   total = total + 10
   !$omp task
   call omp_fulfill_event(waiting)
   !$omp end task
   !$omp end task
   !$omp task detach(other)
   !$omp atomic
   total = total + 100
   !$omp end task
   call omp_fulfill_event(other)
   !$omp task depend(in: waiting)
   !$omp atomic
   total = total + 1000
   !$omp end task
   !$omp end taskgroup
   total = total + 10000
   !$omp end single
   !$omp end parallel
   print '(a, i0)', 'fortran_detach: ', total
end program
