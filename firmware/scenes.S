/*
 * What is measured on, in flash: the example stall, and the scenes and routes that `bench scenes` of rust/bench wrote. A
 * thing NAME has the bytes from NAME on and below NAME_end. Assembled from the root of the repository.
 */
    .macro bytes name, file
    .global \name, \name\()_end
    .balign 2
\name: .incbin "\file"
\name\()_end:
    .endm

    .section .rodata
    bytes stall, examples/stall.frame
    bytes rails, target/firmware/scenes/rails.frame
    bytes plates, target/firmware/scenes/plates.frame
    bytes small, target/firmware/scenes/small.frame
    bytes diagonal, target/firmware/scenes/diagonal.frame
    bytes flat, target/firmware/scenes/flat.frame
    bytes outside, target/firmware/scenes/outside.frame
    bytes worst, target/firmware/scenes/worst.frame
    bytes whole, target/firmware/scenes/whole.frame
    bytes sides, target/firmware/scenes/sides.frame
    bytes slim_free, target/firmware/scenes/slim-free.route
    bytes slim_blocked, target/firmware/scenes/slim-blocked.route
    bytes wide_free, target/firmware/scenes/wide-free.route
    bytes wide_blocked, target/firmware/scenes/wide-blocked.route
