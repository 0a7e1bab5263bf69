// What formula.rt.txt declares with a promise that can't be kept. It does nothing.
void promised(void) {}
