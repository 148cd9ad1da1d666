/* Tests of the calls of sound banks, with every lent byte compared. */
#ifndef TEST_BANKS_H
#define TEST_BANKS_H

void test_banks(void);

#endif
