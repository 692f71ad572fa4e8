! The program in Fortran, as a model of its kind is written: list-directed reading of the same two files, the march in double precision, a line for
! each record. No checks. It stands beside the program in bench/run.
program surge
  use, intrinsic :: iso_c_binding, only: c_int64_t, c_double
  use plain_march
  implicit none
  integer(c_int64_t) :: latitude, friction, initial, seconds, tide, n, first, elapsed
  integer(c_int64_t) :: points(2, most), storm(3, most)
  real(c_double) :: v(most), kept(most), height
  integer :: i, status
  character(len=80) :: names

  call plain_start()
  open (10, file='traverse.txt', status='old', action='read')
  read (10, '(a)') names
  read (10, *) latitude, friction, initial
  read (10, '(a)') names
  n = -1
  do
    read (10, *, iostat=status) points(1, n + 2), points(2, n + 2)
    if (status /= 0) exit
    n = n + 1
  end do
  close (10)

  open (11, file='storm.txt', status='old', action='read')
  read (11, '(a)') names
  print '(a)', 'seconds height'
  v = 0d0
  kept = 0d0
  first = 1
  elapsed = 0
  records: do
    do i = 1, int(n) + 1
      read (11, *, iostat=status) seconds, tide, storm(1, i), storm(2, i), storm(3, i)
      if (status /= 0) exit records
    end do
    elapsed = elapsed + seconds
    height = plain_record(latitude, friction, initial, points(:, 1:n + 1), n, &
      seconds, tide, storm(:, 1:n + 1), first, v(1:n), kept(1:n))
    print '(i0,1x,f0.4)', elapsed, height
    first = 0
  end do records
end program
