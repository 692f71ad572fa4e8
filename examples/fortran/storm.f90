! Marches the storm of a folder over its traverse and prints the hydrograph at the shore: elapsed seconds, low and high of the
! water level in 0.0001 ft. It reads FOLDER/traverse.txt and FOLDER/storm.txt, by default of the current folder. From the project's
! root:
!
!   tools/library
!   gfortran -J target -o target/storm_fortran examples/fortran/surge.f90 examples/fortran/storm.f90 target/staticlib/libsurge_c.a
!   target/storm_fortran examples/hampton-beach
!
! Exit status: 0 a whole listing, 1 a file cannot be read or the listing cannot be written, 2 wrong usage, 3 a refusal.
program hydrograph
  use, intrinsic :: iso_c_binding, only: c_char, c_int, c_int8_t, c_int64_t, c_null_char, c_null_ptr, c_ptr, c_size_t
  use, intrinsic :: iso_fortran_env, only: error_unit, iostat_end
  use surge
  implicit none

  ! Of C's own library: a number after `stop` would be printed on standard error too, and gfortran's `write`, `flush` and `close` do
  ! not say that a short listing could not be written.
  interface
    subroutine c_exit(status) bind(c, name='_Exit')
      import :: c_int
      integer(c_int), value :: status
    end subroutine

    function c_puts(line) bind(c, name='puts') result(status)
      import :: c_char, c_int
      character(kind=c_char), intent(in) :: line(*)
      integer(c_int) :: status
    end function

    function c_fflush(file) bind(c, name='fflush') result(status)
      import :: c_int, c_ptr
      type(c_ptr), value :: file
      integer(c_int) :: status
    end function
  end interface

  integer(c_int), parameter :: whole = 0, failed = 1, usage = 2, refused = 3

  ! The traverse, and what the march keeps from record to record.
  integer(c_int64_t) :: head(fennhop_head), points(fennhop_points_stride, fennhop_most_points)
  integer(c_size_t) :: point_count
  integer(c_int64_t) :: state(fennhop_state)
  type(fennhop_row) :: rows(fennhop_most_segments)
  ! Level C: after every accepted record the setup range of each segment, low and high.
  integer(c_int64_t) :: setup(fennhop_setup_stride, fennhop_most_segments)

  integer(c_int64_t) :: answer(fennhop_answer)
  integer(c_int8_t), allocatable :: text(:)
  character(:), allocatable :: folder

  call find_folder()
  call read_whole(folder // '/traverse.txt')
  call open_traverse()
  call print_line('seconds low high')
  call read_whole(folder // '/storm.txt')
  call march_storm()
  call end_run(whole)

contains

  subroutine find_folder()
    integer :: length
    folder = '.'
    if (command_argument_count() > 1) then
      call tell('usage: storm_fortran [FOLDER]')
      call c_exit(usage)
    else if (command_argument_count() == 1) then
      call get_command_argument(1, length=length)
      deallocate (folder)
      allocate (character(length) :: folder)
      call get_command_argument(1, folder)
    end if
  end subroutine

  ! All of a file's bytes go to `text`. Byte by byte: so the end is told from a read that fails, and a named pipe, which has no
  ! size, is read too. A file that cannot be opened counts as empty text.
  subroutine read_whole(path)
    character(*), intent(in) :: path
    integer(c_int8_t), allocatable :: wider(:)
    integer(c_int8_t) :: byte
    integer(c_size_t) :: count
    integer :: unit, status
    character(200) :: message

    count = 0
    if (allocated(text)) deallocate (text)
    allocate (text(65536))
    open (newunit=unit, file=path, access='stream', form='unformatted', action='read', status='old', iostat=status)
    if (status == 0) then
      do
        read (unit, iostat=status, iomsg=message) byte
        if (status /= 0) exit
        if (count == size(text, kind=c_size_t)) then
          allocate (wider(2 * count))
          wider(:count) = text
          call move_alloc(wider, text)
        end if
        count = count + 1
        text(count) = byte
      end do
      close (unit)
      if (status /= iostat_end) call end_failed(path // ': ' // trim(message))
    end if
    text = text(:count)
  end subroutine

  ! Reading judges the text, opening judges the values.
  subroutine open_traverse()
    call accept(fennhop_read_traverse(text, size(text, kind=c_size_t), head, fennhop_head, points, fennhop_read_points, &
                                      answer, fennhop_answer))
    point_count = int(answer(2), c_size_t)
    call accept(fennhop_open_traverse(head(1), head(2), head(3), points, fennhop_points_stride * point_count, &
                                      state, fennhop_state, answer, fennhop_answer))
    rows = fennhop_row(0, 0, 0)  ! a fresh traverse
  end subroutine

  ! Record after record: the lines of those that are sound stand above a refusal.
  subroutine march_storm()
    integer(c_int64_t) :: cursor(fennhop_cursor), values(fennhop_values), storm(fennhop_storm_stride, fennhop_most_points)
    character(80) :: line

    cursor = 0  ! at the text's beginning
    do
      call accept(fennhop_read_record(text, size(text, kind=c_size_t), point_count, cursor, fennhop_cursor, &
                                      values, fennhop_values, storm, fennhop_read_storm, answer, fennhop_answer))
      if (answer(2) == 0) exit  ! the text has no more records
      call accept(fennhop_take_record(head(1), head(2), head(3), points, fennhop_points_stride * point_count, &
                                      values(1), values(2), storm, fennhop_storm_stride * point_count, &
                                      state, fennhop_state, rows, point_count - 1, &
                                      setup, fennhop_setup_stride * (point_count - 1), answer, fennhop_answer))
      write (line, '(i0, 1x, i0, 1x, i0)') state(1), answer(2), answer(3)
      call print_line(trim(line))
    end do
  end subroutine

  ! Goes on where a call returned 0; a refusal is the last line.
  subroutine accept(number)
    integer(c_int64_t), intent(in) :: number
    character(80) :: line

    if (number == 0) return
    write (line, '(a, 1x, i0, 1x, i0)') 'refused', number, answer(1)
    call print_line(trim(line))
    call end_run(refused)
  end subroutine

  ! The lines above stand, but the listing is not whole.
  subroutine end_failed(message)
    character(*), intent(in) :: message
    call tell(message)
    call print_line('failed')
    call end_run(failed)
  end subroutine

  subroutine print_line(line)
    character(*), intent(in) :: line
    call check_written(c_puts(line // c_null_char))
  end subroutine

  ! Only when the last line has left the buffer is it known to be written.
  subroutine end_run(status)
    integer(c_int), intent(in) :: status
    call check_written(c_fflush(c_null_ptr))
    call c_exit(status)
  end subroutine

  ! A line that is lost would leave a gap in the listing: so nothing more is written once a write failed.
  subroutine check_written(status)
    integer(c_int), intent(in) :: status
    if (status >= 0) return
    call tell('standard output cannot be written')
    call c_exit(failed)
  end subroutine

  subroutine tell(message)
    character(*), intent(in) :: message
    write (error_unit, '(a)') message
    flush (error_unit)
  end subroutine
end program
