/* The region that root delegates to its taker: COUNT pages, and one more page that is granted. */
#ifndef DELEGATE_H
#define DELEGATE_H

#define COUNT 7u
#define GIVEN 0xa1000u
#define TAKEN 0x8c1000u

#endif
