/* Out of use. The kit's programs had no status once, so crates/entry exported the two tools, and this main ended with what RUN, one of them,
   answered. Today's kit lets no export have the runtime; crates/parchfennel and crates/sequences end with the status themselves. */
int RUN(void);
int main(void) { return RUN(); }
