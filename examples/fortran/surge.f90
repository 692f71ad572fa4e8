! All of include/surge.h for Fortran: every constant, the row of a segment and every call, under the header's names. The header says
! what each number is, its unit and limits, who owns what, and the refusals.
! An array goes in with a count after it: of rows for `rows`, of bytes for `text` and `deck`, of its numbers for every other. Fortran
! has no unsigned numbers: none that is returned is past 255, and a byte of a text above 127 is a negative c_int8_t, the same bits.
module surge
  use, intrinsic :: iso_c_binding, only: c_int8_t, c_int64_t, c_size_t
  implicit none

  ! The version of the header and its library; the number is 10,000 * major + 100 * minor + patch.
  character(*), parameter :: fennhop_version = '3.1.0'
  integer, parameter :: fennhop_version_number = 30100

  ! The most points of a traverse, and the most segments between them; and the same on the panel.
  integer(c_size_t), parameter :: fennhop_most_points = 65
  integer(c_size_t), parameter :: fennhop_most_segments = 64
  integer(c_size_t), parameter :: fennhop_panel_most_points = 17
  integer(c_size_t), parameter :: fennhop_panel_most_segments = 16

  ! The most rows of a list of winds.
  integer(c_size_t), parameter :: fennhop_most_winds = 50

  ! The entries of a table of factors.
  integer(c_size_t), parameter :: fennhop_factors = 1001

  ! Numbers a point of `points`, a point of `storm`, a segment of `setup`, a row of `winds`, a point of `sites`.
  integer(c_size_t), parameter :: fennhop_points_stride = 2
  integer(c_size_t), parameter :: fennhop_storm_stride = 3
  integer(c_size_t), parameter :: fennhop_setup_stride = 2
  integer(c_size_t), parameter :: fennhop_winds_stride = 2
  integer(c_size_t), parameter :: fennhop_sites_stride = 3

  ! Numbers of the arrays that have one length.
  integer(c_size_t), parameter :: fennhop_state = 2
  integer(c_size_t), parameter :: fennhop_answer = 3
  integer(c_size_t), parameter :: fennhop_head = 3
  integer(c_size_t), parameter :: fennhop_read_points = 130  ! fennhop_points_stride * fennhop_most_points
  integer(c_size_t), parameter :: fennhop_cursor = 2
  integer(c_size_t), parameter :: fennhop_values = 2
  integer(c_size_t), parameter :: fennhop_read_storm = 195  ! fennhop_storm_stride * fennhop_most_points

  ! What is returned where a call is refused.
  integer(c_int64_t), parameter :: fennhop_refused_names = 1           ! a names line different, or the text empty
  integer(c_int64_t), parameter :: fennhop_refused_malformed = 2       ! a value line malformed, or a wrong count of values
  integer(c_int64_t), parameter :: fennhop_refused_ended = 3           ! the text ends too early
  integer(c_int64_t), parameter :: fennhop_refused_differs = 4         ! seconds or tide differ within a record
  integer(c_int64_t), parameter :: fennhop_refused_points = 5          ! fewer than 2 or more than 65 points
  integer(c_int64_t), parameter :: fennhop_refused_traverse_value = 6  ! a value of the traverse past its limits
  integer(c_int64_t), parameter :: fennhop_refused_distance = 7        ! distances break their rule
  integer(c_int64_t), parameter :: fennhop_refused_lent = 8            ! rows, points of the record, setup or room do not fit
  integer(c_int64_t), parameter :: fennhop_refused_record_value = 9    ! a value of the record, or the elapsed time, past its limits
  integer(c_int64_t), parameter :: fennhop_refused_depth = 10          ! water depth past its limits
  integer(c_int64_t), parameter :: fennhop_refused_flux = 11           ! flux past its limits
  integer(c_int64_t), parameter :: fennhop_refused_setup = 12          ! setup past its limits
  integer(c_int64_t), parameter :: fennhop_refused_storm_value = 13    ! a value or a count that a record is made from past its limits
  integer(c_int64_t), parameter :: fennhop_refused_wind_radii = 14     ! radii of the list of winds do not rise
  integer(c_int64_t), parameter :: fennhop_refused_card_order = 15     ! a wrong word or card number of a deck
  integer(c_int64_t), parameter :: fennhop_refused_card_unit = 16      ! a number of a deck that is no whole count of tenths
  integer(c_int64_t), parameter :: fennhop_refused_card_counts = 17    ! not as many depths of a deck as distances
  integer(c_int64_t), parameter :: fennhop_refused_calm_angle = 18     ! a wind of 0 with an angle other than 0
  integer(c_int64_t), parameter :: fennhop_refused_panel_points = 19   ! on the panel: more than 17 points, and no more than 65
  integer(c_int64_t), parameter :: fennhop_refused_profile_entry = 20  ! an entry of a pressure profile bad, missing or one too many

  ! Returned where an array that has one length is lent with another.
  integer(c_int64_t), parameter :: fennhop_wrong_buffer = 255

  ! What the march keeps of a segment: the range of its flux, and its last sum of two cross stresses.
  type, bind(c) :: fennhop_row
    integer(c_int64_t) :: low, high, cross
  end type

  interface
    function fennhop_open_traverse(latitude, friction, initial, points, points_count, &
                                   state, state_count, answer, answer_count) bind(c) result(number)
      import :: c_int64_t, c_size_t
      integer(c_int64_t), value :: latitude, friction, initial
      integer(c_int64_t), intent(in) :: points(*)
      integer(c_size_t), value :: points_count, state_count, answer_count
      integer(c_int64_t), intent(inout) :: state(*), answer(*)
      integer(c_int64_t) :: number
    end function

    function fennhop_take_record(latitude, friction, initial, points, points_count, seconds, tide, storm, storm_count, &
                                 state, state_count, rows, rows_count, setup, setup_count, answer, answer_count) &
                                 bind(c) result(number)
      import :: c_int64_t, c_size_t, fennhop_row
      integer(c_int64_t), value :: latitude, friction, initial, seconds, tide
      integer(c_int64_t), intent(in) :: points(*), storm(*)
      integer(c_size_t), value :: points_count, storm_count, state_count, rows_count, setup_count, answer_count
      integer(c_int64_t), intent(inout) :: state(*), setup(*), answer(*)
      type(fennhop_row), intent(inout) :: rows(*)
      integer(c_int64_t) :: number
    end function

    function fennhop_panel_open_traverse(latitude, friction, initial, points, points_count, &
                                         state, state_count, answer, answer_count) bind(c) result(number)
      import :: c_int64_t, c_size_t
      integer(c_int64_t), value :: latitude, friction, initial
      integer(c_int64_t), intent(in) :: points(*)
      integer(c_size_t), value :: points_count, state_count, answer_count
      integer(c_int64_t), intent(inout) :: state(*), answer(*)
      integer(c_int64_t) :: number
    end function

    function fennhop_panel_take_record(latitude, friction, initial, points, points_count, seconds, tide, storm, storm_count, &
                                       state, state_count, rows, rows_count, setup, setup_count, answer, answer_count) &
                                       bind(c) result(number)
      import :: c_int64_t, c_size_t, fennhop_row
      integer(c_int64_t), value :: latitude, friction, initial, seconds, tide
      integer(c_int64_t), intent(in) :: points(*), storm(*)
      integer(c_size_t), value :: points_count, storm_count, state_count, rows_count, setup_count, answer_count
      integer(c_int64_t), intent(inout) :: state(*), setup(*), answer(*)
      type(fennhop_row), intent(inout) :: rows(*)
      integer(c_int64_t) :: number
    end function

    function fennhop_read_traverse(text, text_count, head, head_count, points, points_count, answer, answer_count) &
                                   bind(c) result(number)
      import :: c_int8_t, c_int64_t, c_size_t
      integer(c_int8_t), intent(in) :: text(*)
      integer(c_size_t), value :: text_count, head_count, points_count, answer_count
      integer(c_int64_t), intent(inout) :: head(*), points(*), answer(*)
      integer(c_int64_t) :: number
    end function

    function fennhop_read_record(text, text_count, point_count, cursor, cursor_count, values, values_count, &
                                 storm, storm_count, answer, answer_count) bind(c) result(number)
      import :: c_int8_t, c_int64_t, c_size_t
      integer(c_int8_t), intent(in) :: text(*)
      integer(c_size_t), value :: text_count, point_count, cursor_count, values_count, storm_count, answer_count
      integer(c_int64_t), intent(inout) :: cursor(*), values(*), storm(*), answer(*)
      integer(c_int64_t) :: number
    end function

    function fennhop_make_record(central_pressure, edge_pressure, radius, x, y, seconds, tide, winds, winds_count, &
                                 sites, sites_count, storm, storm_count, answer, answer_count) bind(c) result(number)
      import :: c_int64_t, c_size_t
      integer(c_int64_t), value :: central_pressure, edge_pressure, radius, x, y, seconds, tide
      integer(c_int64_t), intent(in) :: winds(*), sites(*)
      integer(c_size_t), value :: winds_count, sites_count, storm_count, answer_count
      integer(c_int64_t), intent(inout) :: storm(*), answer(*)
      integer(c_int64_t) :: number
    end function

    function fennhop_load_profile(text, text_count, factors, factors_count, answer, answer_count) bind(c) result(number)
      import :: c_int8_t, c_int64_t, c_size_t
      integer(c_int8_t), intent(in) :: text(*)
      integer(c_size_t), value :: text_count, factors_count, answer_count
      integer(c_int64_t), intent(inout) :: factors(*), answer(*)
      integer(c_int64_t) :: number
    end function

    function fennhop_make_record_with(factors, factors_count, central_pressure, edge_pressure, radius, x, y, seconds, tide, &
                                      winds, winds_count, sites, sites_count, storm, storm_count, answer, answer_count) &
                                      bind(c) result(number)
      import :: c_int64_t, c_size_t
      integer(c_int64_t), intent(in) :: factors(*)
      integer(c_size_t), value :: factors_count
      integer(c_int64_t), value :: central_pressure, edge_pressure, radius, x, y, seconds, tide
      integer(c_int64_t), intent(in) :: winds(*), sites(*)
      integer(c_size_t), value :: winds_count, sites_count, storm_count, answer_count
      integer(c_int64_t), intent(inout) :: storm(*), answer(*)
      integer(c_int64_t) :: number
    end function

    function fennhop_read_deck(latitude, friction, initial, deck, deck_count, text, text_count, answer, answer_count) &
                               bind(c) result(number)
      import :: c_int8_t, c_int64_t, c_size_t
      integer(c_int64_t), value :: latitude, friction, initial
      integer(c_int8_t), intent(in) :: deck(*)
      integer(c_size_t), value :: deck_count, text_count, answer_count
      integer(c_int8_t), intent(inout) :: text(*)
      integer(c_int64_t), intent(inout) :: answer(*)
      integer(c_int64_t) :: number
    end function
  end interface
end module
