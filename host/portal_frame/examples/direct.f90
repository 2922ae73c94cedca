! The portal frame of portal_frame's src/lib.rs by direct calls in Fortran, through the drop-in library. direct.rs and
! direct.c do the same and print the same.
program direct
    use, intrinsic :: iso_fortran_env, only: real64, int64
    implicit none

    ! Lower triangular factor of the stiffness; end moments by unknown; loads and fixed end moments by load case; factors
    ! of the load cases by combination. All are stored by columns.
    real(real64), parameter :: factor(3, 3) = reshape([94.16607669431704d0, -94.16607669431706d0, &
        -94.16607669431706d0, 0d0, 217.16525965264333d0, 33.72431673332265d0, 0d0, 0d0, 214.5306981783039d0], [3, 3])
    real(real64), parameter :: end_stiffness(6, 3) = reshape([ &
        -8867.25d0, -8867.25d0, 0d0, 0d0, -8867.25d0, -8867.25d0, &
        11823d0, 23646d0, 32382d0, 16191d0, 0d0, 0d0, &
        0d0, 0d0, 16191d0, 32382d0, 23646d0, 11823d0], [6, 3])
    real(real64), parameter :: loads(3, 3) = reshape([0d0, 36d0, -36d0, 0d0, 54d0, -54d0, 20d0, 0d0, 0d0], [3, 3])
    real(real64), parameter :: fixed_end_moments(6, 3) = reshape([0d0, 0d0, -36d0, 36d0, 0d0, 0d0, &
        0d0, 0d0, -54d0, 54d0, 0d0, 0d0, 0d0, 0d0, 0d0, 0d0, 0d0, 0d0], [6, 3])
    real(real64), parameter :: factors(3, 4) = reshape([1.35d0, 1.5d0, 0d0, 1.35d0, 1.5d0, 0.9d0, &
        1.35d0, 1.05d0, 1.5d0, 1d0, 0d0, 1.5d0], [3, 4])

    real(real64) :: x(3, 4), m(6, 4)
    external :: dgemm, dtrsm

    call dgemm('N', 'N', 3, 4, 3, 1d0, loads, 3, factors, 3, 0d0, x, 3)
    call dtrsm('L', 'L', 'N', 'N', 3, 4, 1d0, factor, 3, x, 3)
    call dtrsm('L', 'L', 'T', 'N', 3, 4, 1d0, factor, 3, x, 3)
    call dgemm('N', 'N', 6, 4, 3, 1d0, fixed_end_moments, 6, factors, 3, 0d0, m, 6)
    call dgemm('N', 'N', 6, 4, 3, 1d0, end_stiffness, 6, x, 3, 1d0, m, 6)
    call print(['u    ', 'phi B', 'phi C'], x)
    call print(['AB', 'BA', 'BC', 'CB', 'CD', 'DC'], m)

contains

    ! Prints a matrix: each entry's row, column, value and bits.
    subroutine print(names, values)
        character(*), intent(in) :: names(:)
        real(real64), intent(in) :: values(:, :)
        integer :: i, j
        do j = 1, size(values, 2)
            do i = 1, size(values, 1)
                write (*, '(a, t7, i2, f14.6, 2x, z16.16)') names(i), j, values(i, j), transfer(values(i, j), 0_int64)
            end do
        end do
    end subroutine
end program
