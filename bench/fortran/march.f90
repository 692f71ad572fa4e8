! The same march in double precision, as a Fortran model would do it: document 01's formulas on real numbers and the flux limit of document 02, no
! ranges, no checks. Sines come from a table of all tenths of a degree, filled once and rounded to whole numbers as document 01's table is, and the b
! of the limit is a whole number too. Units are document 01's.
module plain_march
  use, intrinsic :: iso_c_binding, only: c_int64_t, c_double
  implicit none
  integer, parameter :: most = 65
  real(c_double), parameter :: pi = 3.14159265358979323846d0
  real(c_double) :: sines(0:4499)

contains

  subroutine plain_start() bind(c)
    integer :: a
    do a = 0, 4499
      sines(a) = anint(10000d0 * sin(a * pi / 1800d0))
    end do
  end subroutine

  pure function stress(w) result(q)
    real(c_double), intent(in) :: w
    real(c_double) :: q
    q = 11d0 * w * w
    if (w > 160d0) q = q + 25d0 * (w - 160d0)**2
  end function

  ! One record over n segments: v and kept are each segment's flux and last sum of cross stresses. Answers the height at the shore.
  function plain_record(latitude, friction, initial, points, n, seconds, tide, storm, first, v, kept) bind(c) result(height)
    integer(c_int64_t), value :: latitude, friction, initial, n, seconds, tide, first
    integer(c_int64_t), intent(in) :: points(2, n + 1), storm(3, n + 1)
    real(c_double), intent(inout) :: v(n), kept(n)
    real(c_double) :: height
    real(c_double) :: s, level, depth, force, gain, setup, sum, q, cross(most), onshore(most), d2, limit
    integer :: i

    do i = 1, int(n) + 1
      q = stress(real(storm(1, i), c_double))
      cross(i) = q * sines(storm(2, i))
      onshore(i) = q * sines(storm(2, i) + 900)
    end do
    s = sines(latitude)
    level = real(initial + tide, c_double)
    setup = 0d0
    do i = 1, int(n)
      depth = (500d0 * (points(2, i) + points(2, i + 1)) + 100d0 * level + 57d0 * (storm(3, i) + storm(3, i + 1)) + setup) / 100d0
      sum = cross(i) + cross(i + 1)
      if (first == 0) then
        force = seconds * (kept(i) + sum) * 121d0 / 22500000000000d0
        d2 = 100d0 * depth * depth
        v(i) = (v(i) + force) * d2 / (d2 + friction * seconds * abs(v(i)))
        limit = aint(sqrt(242d0 * abs(sum) / (225000d0 * friction))) * depth / 1000d0
        v(i) = max(-limit, min(limit, v(i)))
      end if
      kept(i) = sum
      gain = (points(1, i) - points(1, i + 1)) * (2748816d0 * s * v(i) + 2030d0 * (onshore(i) + onshore(i + 1))) / (1d9 * depth)
      setup = setup + gain
    end do
    height = setup + 100d0 * level + 114d0 * storm(3, n + 1)
  end function
end module
