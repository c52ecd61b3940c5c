! Taskloops of Fortran: grainsize, num_tasks, collapse, lastprivate, reductions, nogroup, and large bounds.
program fortran_taskloop
   implicit none
   integer :: i, j, total, last, table(5, 6)
   integer(8) :: k, large
   total = 0
   last = 0
   large = 0
   !$omp parallel
   !$omp single
   !$omp taskloop grainsize(3) lastprivate(last)
   do i = 1, 20
      last = i
   end do
   !$omp end taskloop
   !$omp taskloop num_tasks(4) collapse(2) private(i, j)
   do j = 1, 6
      do i = 1, 5
         table(i, j) = i * j
      end do
   end do
   !$omp end taskloop
   !$omp taskloop reduction(+: total) num_tasks(5)
   do i = 1, 30, 2
      total = total + i
   end do
   !$omp end taskloop
   !$omp taskgroup
   !$omp taskloop nogroup grainsize(2)
   do k = 9000000000_8, 9000000010_8
      !$omp atomic
      large = large + k
   end do
   !$omp end taskloop
   !$omp end taskgroup
   !$omp end single
   !$omp end parallel
   print '(a, i0, a, i0, a, i0, a, i0)', 'fortran_taskloop: ', last, ' ', sum(table), ' ', total, ' ', large
end program
