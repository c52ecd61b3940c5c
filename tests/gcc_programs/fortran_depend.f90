! Dependences of Fortran: array elements, array sections, mutexinoutset, and a taskwait with dependences.
program fortran_depend
   implicit none
   integer :: i, cells(8), total, seen
   total = 0
   cells = 0
   seen = 0
   !$omp parallel
   !$omp single
   do i = 2, 8
      !$omp task depend(in: cells(i - 1)) depend(out: cells(i)) firstprivate(i)
      cells(i) = cells(i - 1) + i
      !$omp end task
   end do
   do i = 1, 6
      !$omp task depend(mutexinoutset: total) depend(in: cells(8)) firstprivate(i)
      total = total + i * cells(8)
      !$omp end task
   end do
   !$omp taskwait depend(in: total)
   seen = total
   !$omp task depend(inout: cells(2:4))
   cells(2) = 100
   !$omp end task
   !$omp taskwait
   !$omp end single
   !$omp end parallel
   print '(a, i0, a, i0, a, i0)', 'fortran_depend: ', total, ' ', seen, ' ', cells(2)
end program
