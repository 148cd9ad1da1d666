/* Tests of the check of encoders, with every lent byte compared. */
#ifndef TEST_ENCODER_H
#define TEST_ENCODER_H

void test_encoder(void);

#endif
