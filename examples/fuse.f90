! fuse JOB [CORNERS]: fuses the job of a file in a room of so many corners (8,192 if none are named) and prints its bodies. Ends with 1
! where it was refused, with the reason on standard error.
!   gfortran bindings/solid.f90 examples/fuse.f90 target/native/libsolid.a -o fuse
program fuse
  use solid
  use, intrinsic :: iso_fortran_env, only: error_unit
  implicit none
  integer(c_int8_t), allocatable :: job(:), answer(:)
  integer(c_int64_t), allocatable :: room(:)
  integer(c_int64_t) :: corners, told
  character(1000) :: word
  if (solid_version_1() == 0) stop 2
  corners = 8192
  if (command_argument_count() > 1) then
    call get_command_argument(2, word)
    read (word, *) corners
  end if
  call get_command_argument(1, word)
  job = bytes_of(trim(word))
  allocate (room(solid_room_words(corners)), answer(64 * corners))
  told = solid_fuse_in(room, job, size(job, kind=c_size_t), corners, answer, size(answer, kind=c_size_t))
  print '(a, i0)', 'answer ', mod(told, 256_c_int64_t)
  if (mod(told, 256_c_int64_t) /= 0) then
    write (error_unit, '(a)') reason(mod(told, 256_c_int64_t))
    stop 1, quiet=.true.
  end if
  call print_bodies(answer(:told / 256))

contains

  function bytes_of(path) result(bytes)
    character(*), intent(in) :: path
    integer(c_int8_t), allocatable :: bytes(:)
    integer :: file, n
    open (newunit=file, file=path, access='stream', form='unformatted', status='old', action='read')
    inquire (unit=file, size=n)
    allocate (bytes(n))
    read (file) bytes
    close (file)
  end function

  ! The count that stands behind so many bytes.
  integer function count_at(bytes, at)
    integer(c_int8_t), intent(in) :: bytes(:)
    integer, intent(in) :: at
    count_at = int(transfer(bytes(at + 1:at + 4), 0_c_int32_t))
  end function

  subroutine print_bodies(bytes)
    integer(c_int8_t), intent(in) :: bytes(:)
    integer :: at, body, shell, facet, facets
    character(8) :: way
    at = 0
    body = 0
    do while (at < size(bytes))
      body = body + 1
      associate (shells => count_at(bytes, at))
        print '(a, i0, a, i0)', 'body ', body, ' shells ', shells
        at = at + 4
        do shell = 1, shells
          way = merge('outward ', 'inward  ', bytes(at + 1) == 1)
          facets = count_at(bytes, at + 1)
          print '(a, i0, a, a, a, i0)', 'shell ', shell, ' ', trim(way), ' facets ', facets
          at = at + 5
          do facet = 1, facets
            at = at + 100 + 24 * count_at(bytes, at + 96)
          end do
        end do
      end associate
    end do
  end subroutine
end program
