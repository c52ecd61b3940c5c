! Taskgroups of Fortran with reductions, worksharing constructs with tasks inside, and regions in regions.
program fortran_groups
   use omp_lib
   implicit none
   integer :: i, total, reduced, array(4)
   total = 0
   reduced = 0
   call omp_set_max_active_levels(2)
   !$omp parallel private(i)
   !$omp single
   !$omp taskgroup task_reduction(+: reduced)
   do i = 1, 20
      !$omp task in_reduction(+: reduced) firstprivate(i)
      reduced = reduced + i
      !$omp end task
   end do
   !$omp end taskgroup
   !$omp end single
   !$omp do schedule(dynamic)
   do i = 1, 10
      !$omp task firstprivate(i)
      !$omp atomic
      total = total + i
      !$omp end task
   end do
   !$omp end do
   !$omp sections
   !$omp section
   call create(total, 100)
   !$omp section
   call create(total, 200)
   !$omp end sections
   !$omp workshare
   array = 5
   !$omp end workshare
   !$omp single
   call region(total)
   !$omp end single
   !$omp end parallel
   print '(a, i0, a, i0, a, i0)', 'fortran_groups: ', reduced, ' ', total, ' ', sum(array)
contains
   subroutine create(number, what)
      integer, intent(inout) :: number
      integer, intent(in) :: what
      !$omp task shared(number) firstprivate(what)
      !$omp atomic
      number = number + what
      !$omp end task
      !$omp taskwait
   end subroutine
   subroutine region(number)
      integer, intent(inout) :: number
      !$omp parallel num_threads(2) shared(number)
      !$omp master
      call create(number, 1000)
      !$omp end master
      !$omp end parallel
   end subroutine
end program
