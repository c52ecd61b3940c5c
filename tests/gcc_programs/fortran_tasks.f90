! Tasks of Fortran: recursion with taskwait, if, final, firstprivate arrays, and a taskgroup.
module trees
contains
   recursive integer function tree(n) result(found)
      integer, intent(in) :: n
      integer :: a, b
      if (n < 2) then
         found = n
         return
      end if
      !$omp task shared(a) if (n > 3)
      a = tree(n - 1)
      !$omp end task
      !$omp task shared(b) final(n < 5)
      b = tree(n - 2)
      !$omp end task
      !$omp taskwait
      found = a + b
   end function
end module

program fortran_tasks
   use trees
   implicit none
   integer :: i, total, found, numbers(10)
   total = 0
   !$omp parallel
   !$omp single
   found = tree(11)
   !$omp taskgroup
   do i = 1, 12
      numbers = i
      !$omp task firstprivate(i, numbers)
      !$omp task firstprivate(i)
      !$omp atomic
      total = total + i
      !$omp end task
      !$omp atomic
      total = total + sum(numbers)
      !$omp end task
   end do
   !$omp end taskgroup
   !$omp end single
   !$omp end parallel
   print '(a, i0, a, i0)', 'fortran_tasks: ', found, ' ', total
end program
