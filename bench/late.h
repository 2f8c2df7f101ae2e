/* Jobs without an enhancement that may still come: a picture whose row pairs are all composed against those of which
   half are full and kept. Prints tables in Markdown; exits 1 where a job leaves something else. */
void late_rows(int runs);
