// What tools/linux.c has, and picolibc's headers declare for other systems alone.
struct stat;
struct utimbuf;
int lstat(const char *, struct stat *);
int utime(const char *, const struct utimbuf *);
