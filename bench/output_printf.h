// Output through formatted printing.

typedef FILE *Out;

static inline Out put(Out out, int number) {
  fprintf(out, "%d ", number);
  return out;
}

static inline Out end(Out out) {
  fprintf(out, "0\n");
  return out;
}

static Out open_output(void) { return stdout; }

static Out header(Out out, int variables, int clauses) {
  fprintf(out, "p cnf %d %d\n", variables, clauses);
  return out;
}

static void close_output(Out out) {
  if (fclose(out) != 0) exit(1);
}
