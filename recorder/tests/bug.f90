! Bugs of arrays, by name, and code that has none.
module tables
  implicit none
  integer, save :: table(4) = 2
contains
  integer function element(of, at)
    integer, intent(in) :: of(*), at
    element = of(at)
  end function
end module

program bug
  use tables
  implicit none
  integer, allocatable :: row(:)
  integer, pointer :: block(:)
  complex(8), allocatable :: waves(:)
  character(9) :: wanted
  call get_command_argument(1, wanted)
  allocate(row(5), block(3))
  row = 1; block = 3
  select case (wanted)
  case ('row');       if (row(element(row, 1) * 6) == 1) print *, 'one'
  case ('table');     print *, element(table, 5) == 0
  case ('automatic'); call past_automatic(5)
  case ('local');     call past_local(element(row, 1) * 5)
  case ('block');     print *, element(block, 4) == 0
  case ('freed');     call after_its_end(block)
  case ('complex');   allocate(waves(3)); call past_waves(waves, element(block, 1))
  case default;       print *, sum(row), sum(table), sum(block)
  end select
  deallocate(row)
  if (wanted /= 'freed') deallocate(block)
contains
  subroutine past_automatic(n)
    integer, intent(in) :: n
    integer :: local(n)
    local = 4
    print *, element(local, n + 1) == 0
  end subroutine
  subroutine past_local(at)
    integer, intent(in) :: at
    integer :: local(4)
    local = 4
    print *, element(local, at) == 0
  end subroutine
  subroutine past_waves(it, n)
    complex(8) :: it(:)
    integer, intent(in) :: n
    integer :: i
    do i = 1, n; it(i) = cmplx(i, 2, 8); end do
    print *, real(it(n + 1)) < 0
  end subroutine
  subroutine after_its_end(it)
    integer, pointer :: it(:), also(:)
    also => it
    deallocate(it)
    print *, element(also, 1) == 0
  end subroutine
end program
