// gen_sample N > FILE: a closed solid of N by N quadrilateral faces on a torus, as canonical text.
// gen_sample N split > FILE: the same with each integer coordinate spelled as a real (1234.) and 12 digits, to have real-heavy text.
#include <stdio.h>
#include <stdlib.h>
#include <string.h>
static char **rec; static int *first, *count; static char *kindof; static size_t nent;
static char *buf; static size_t bn, bc; static int col; static long plines; static int owner; static char line[65];
static void flushline(void) { memset(line + col, ' ', 64 - col); if (bn + 82 > bc) { bc = bc ? bc * 2 : 1 << 20; buf = realloc(buf, bc); } plines++; bn += sprintf(buf + bn, "%.64s %7dP%7ld\n", line, owner, plines); col = 0; }
static void word(const char *s, char d) { int n = strlen(s) + 1; if (col + n > 64) flushline(); memcpy(line + col, s, n - 1); line[col + n - 1] = d; col += n; }
static int *kinds, *forms;
static void num(long v, int last) { char t[32]; sprintf(t, "%ld", v); word(t, last ? ';' : ','); }
static int reals;
static void coord(long v, int last) { if (!reals) { num(v, last); return; } char t[40]; sprintf(t, "%ld.%011ld", v, v * 7919 % 99999999999L); word(t, last ? ';' : ','); }
static void begin(int no, int kind, int form) { owner = no; kinds[no / 2] = kind; forms[no / 2] = form; first[no / 2] = plines + 1; num(kind, 0); }
static void end(void) { if (col) flushline(); count[owner / 2] = plines + 1 - first[owner / 2]; }
int main(int c, char **v) {
  if (c < 2) return 2; long N = atol(v[1]), M = N * N; reals = c > 2; nent = 6 + 2 * M;
  kinds = calloc(nent, 4); forms = calloc(nent, 4); first = calloc(nent, 4); count = calloc(nent, 4);
#define ID(i, j) ((((i) + N) % N) * N + ((j) + N) % N)
  begin(1, 186, 0); num(3, 0); num(1, 0); num(0, 1); end();
  begin(3, 514, 1); num(M, 0); for (long k = 0; k < M; k++) { num(13 + 4 * k, 0); num(1, k == M - 1); } end();
  begin(5, 502, 1); num(M, 0); for (long i = 0; i < N; i++) for (long j = 0; j < N; j++) { coord(i, 0); coord(j, 0); coord(0, i * N + j == M - 1); } end();
  begin(7, 504, 1); num(2 * M, 0); for (long i = 0; i < N; i++) for (long j = 0; j < N; j++) { int l = i * N + j == M - 1; num(9, 0); num(5, 0); num(ID(i, j) + 1, 0); num(5, 0); num(ID(i, j + 1) + 1, 0); num(9, 0); num(5, 0); num(ID(i, j) + 1, 0); num(5, 0); num(ID(i + 1, j) + 1, l); } end();
  begin(9, 110, 0); { int a[] = {0, 0, 0, 1, 0, 0}; for (int k = 0; k < 6; k++) num(a[k], k == 5); } end();
  begin(11, 108, 0); { int a[] = {0, 0, 1, 0, 0, 0, 0, 0, 0}; for (int k = 0; k < 9; k++) num(a[k], k == 8); } end();
  for (long i = 0; i < N; i++) for (long j = 0; j < N; j++) {
    long f = 13 + 4 * (i * N + j);
    begin(f, 510, 1); num(11, 0); num(1, 0); num(1, 0); num(f + 2, 1); end();
    begin(f + 2, 508, 1); num(4, 0); long e[4] = {2 * ID(i, j) + 1, 2 * ID(i, j + 1) + 2, 2 * ID(i + 1, j) + 1, 2 * ID(i, j) + 2}; int fl[4] = {1, 1, 0, 0};
    for (int k = 0; k < 4; k++) { num(0, 0); num(7, 0); num(e[k], 0); num(fl[k], 0); num(0, k == 3); } end();
  }
  static char out[1 << 20]; setvbuf(stdout, out, _IOFBF, sizeof out);
  printf("%-72sS%7d\n%-72sG%7d\n", "sample", 1, "1H,,1H;;", 1);
  for (size_t k = 0; k < nent; k++) {
    printf("%8d%8d%8d%8d%8d%8d%8d%8d00000000D%7zu\n", kinds[k], first[k], 0, 0, 0, 0, 0, 0, 2 * k + 1);
    printf("%8d%8d%8d%8d%8d%16s%8s%8dD%7zu\n", kinds[k], 0, 0, count[k], forms[k], "", "", 0, 2 * k + 2);
  }
  fwrite(buf, 1, bn, stdout);
  printf("S%7dG%7dD%7zuP%7ld%40sT%7d\n", 1, 1, 2 * nent, plines, "", 1);
  return 0;
}
