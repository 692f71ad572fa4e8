! Reading alone: every value line of storm.txt by a list-directed read, as the program beside it does, and nothing else.
program read_storm
  use, intrinsic :: iso_c_binding, only: c_int64_t
  implicit none
  integer(c_int64_t) :: values(5), lines, total
  integer :: status
  character(len=80) :: names

  open (11, file='storm.txt', status='old', action='read')
  read (11, '(a)') names
  lines = 0
  total = 0
  do
    read (11, *, iostat=status) values
    if (status /= 0) exit
    lines = lines + 1
    total = total + sum(values)
  end do
  print '(i0,1x,i0)', lines, total
end program
