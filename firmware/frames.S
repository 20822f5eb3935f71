/*
 * What the test program works on, in flash: the example frames, each at an odd address, and the text of the cases of
 * crates/digests. A thing NAME has the bytes from NAME on and below NAME_end. Assembled from the root of the repository.
 */
    .macro bytes name, file
    .global \name, \name\()_end
\name: .incbin "\file"
\name\()_end:
    .endm

    .macro frame name
    .balign 4
    .byte 0
    bytes frame_\name, examples/\name\().frame
    .endm

    .section .rodata
    frame a
    frame b
    frame c
    frame d
    frame e
    frame f
    frame g
    frame h
    frame i
    frame scan_float
    frame scan_double
    frame scan_int
    frame stall
    bytes digest_cases, crates/digests/stdin
#ifdef __linux__
    .section .note.GNU-stack, "", %progbits
#endif
