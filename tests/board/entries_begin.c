/* Linked before the entries: what is behind it is theirs. */
void entries_begin(void);
void entries_begin(void) {}
