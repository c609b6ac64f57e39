/* Tallies merged by MPI: the type of a block of 398 bytes, and the operation on such blocks. */
#ifndef OPERATION_H
#define OPERATION_H

#include <mpi.h>

/* The operation's function: each block of `inout` becomes the merge of the block of `in` and itself, 398 zeros where that is refused. `in` and `inout` have
 * `*length` blocks each. What lets it be declared commutative stands beside tally_reduce in tally.h. */
void merge_blocks(void *in, void *inout, int *length, MPI_Datatype *type);

#endif
