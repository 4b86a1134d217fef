/* Where a measured call begins and ends. */
void measured_begin(void);
void measured_end(void);

void measured_begin(void) { __asm__ volatile("nop"); }
void measured_end(void) { __asm__ volatile("nop\n\tnop"); }
