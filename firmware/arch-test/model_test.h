/* What the RISC-V architecture tests ask of a target, for this simulator: where the signature begins and ends, how a
 * test halts, and no interrupts. A test includes this before or behind the tests' own arch_test.h. */
#ifndef MODEL_TEST_H
#define MODEL_TEST_H

/* Nothing to set up: there are no CSRs, and memory stands as it is linked. */
#define RVMODEL_BOOT

/* ECALL with 93 in a7 ends the run, with the code in a0. */
#define RVMODEL_HALT \
    li  a7, 93;      \
    li  a0, 0;       \
    ecall;

#define RVMODEL_DATA_SECTION

#define RVMODEL_DATA_BEGIN       \
    .section .data.signature, "aw"; \
    .align  4;                   \
    .globl  begin_signature;     \
    begin_signature:

#define RVMODEL_DATA_END         \
    .align  4;                   \
    .globl  end_signature;       \
    end_signature:               \
    RVMODEL_DATA_SECTION

/* Tests say by these what they found, where a target can print. The signature says it here. */
#define RVMODEL_IO_INIT
#define RVMODEL_IO_WRITE_STR(register, text)
#define RVMODEL_IO_CHECK()
#define RVMODEL_IO_ASSERT_GPR_EQ(scratch, register, value)
#define RVMODEL_IO_ASSERT_SFPR_EQ(register, value)
#define RVMODEL_IO_ASSERT_DFPR_EQ(register, value)

/* There are no interrupts. */
#define RVMODEL_SET_MSW_INT
#define RVMODEL_CLEAR_MSW_INT
#define RVMODEL_CLEAR_MTIMER_INT
#define RVMODEL_CLEAR_MEXT_INT

#endif
