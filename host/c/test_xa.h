/* Tests of the calls of XA speech, with every lent byte compared. */
#ifndef TEST_XA_H
#define TEST_XA_H

void test_xa(void);

#endif
