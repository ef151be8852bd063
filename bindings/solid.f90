! The calls of include/solid.h for Fortran. The header says what they are given and what they answer; a call returns its number and 256 times
! the bytes of its answer.
module solid
  use, intrinsic :: iso_c_binding, only: c_char, c_double, c_f_pointer, c_int8_t, c_int32_t, c_int64_t, c_ptr, c_size_t
  implicit none

  interface
    ! The version of the archive, by the layout that this module is written for: it does not link with another.
    function solid_version_1() bind(c) result(version)
      import c_int64_t
      integer(c_int64_t) :: version
    end function

    ! How many words a room of so many corners has.
    function solid_room_words(corners) bind(c) result(words)
      import c_int64_t
      integer(c_int64_t), value :: corners
      integer(c_int64_t) :: words
    end function

    function solid_fuse_in(room, job, job_n, corners, answer, answer_n) bind(c) result(told)
      import c_int8_t, c_int64_t, c_size_t
      integer(c_int64_t), intent(inout) :: room(*)
      integer(c_int8_t), intent(in) :: job(*)
      integer(c_int8_t), intent(inout) :: answer(*)
      integer(c_size_t), value :: job_n, answer_n
      integer(c_int64_t), value :: corners
      integer(c_int64_t) :: told
    end function

    function solid_cells_in(room, job, job_n, corners, answer, answer_n) bind(c) result(told)
      import c_int8_t, c_int64_t, c_size_t
      integer(c_int64_t), intent(inout) :: room(*)
      integer(c_int8_t), intent(in) :: job(*)
      integer(c_int8_t), intent(inout) :: answer(*)
      integer(c_size_t), value :: job_n, answer_n
      integer(c_int64_t), value :: corners
      integer(c_int64_t) :: told
    end function

    function solid_offset_in(room, cell, cell_n, distance, corners, answer, answer_n) bind(c) result(told)
      import c_double, c_int8_t, c_int64_t, c_size_t
      integer(c_int64_t), intent(inout) :: room(*)
      integer(c_int8_t), intent(in) :: cell(*)
      integer(c_int8_t), intent(inout) :: answer(*)
      integer(c_size_t), value :: cell_n, answer_n
      real(c_double), value :: distance
      integer(c_int64_t), value :: corners
      integer(c_int64_t) :: told
    end function

    function solid_hollow_in(room, cell, cell_n, thickness, corners, answer, answer_n) bind(c) result(told)
      import c_double, c_int8_t, c_int64_t, c_size_t
      integer(c_int64_t), intent(inout) :: room(*)
      integer(c_int8_t), intent(in) :: cell(*)
      integer(c_int8_t), intent(inout) :: answer(*)
      integer(c_size_t), value :: cell_n, answer_n
      real(c_double), value :: thickness
      integer(c_int64_t), value :: corners
      integer(c_int64_t) :: told
    end function

    function solid_mesh_in(facet, facet_n, answer, answer_n) bind(c) result(told)
      import c_int8_t, c_int64_t, c_size_t
      integer(c_int8_t), intent(in) :: facet(*)
      integer(c_int8_t), intent(inout) :: answer(*)
      integer(c_size_t), value :: facet_n, answer_n
      integer(c_int64_t) :: told
    end function

    function solid_reason(number) bind(c) result(words)
      import c_int64_t, c_ptr
      integer(c_int64_t), value :: number
      type(c_ptr) :: words
    end function
  end interface

contains

  ! What a number says.
  function reason(number) result(words)
    integer(c_int64_t), intent(in) :: number
    character(:), allocatable :: words
    character(kind=c_char), pointer :: letters(:)
    integer :: n
    call c_f_pointer(solid_reason(number), letters, [200])
    words = ''
    do n = 1, size(letters)
      if (iachar(letters(n)) == 0) exit
      words = words // letters(n)
    end do
  end function
end module
