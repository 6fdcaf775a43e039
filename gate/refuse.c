/* Fails one allocation: the library is loaded before the C library, by LD_PRELOAD. Its two
 * variables say which allocation, counted from 1, and the file descriptor to which it writes a dot
 * for each allocation that succeeds and an x for the failed one. It includes no header, so that the
 * clang of the toolchain builds it. */
extern void *__libc_malloc(unsigned long), *__libc_realloc(void *, unsigned long);
extern char *getenv(const char *);
extern unsigned long strtoul(const char *, char **, int);
extern long write(int, const void *, unsigned long);

static unsigned long number_in(const char *name)
{
	const char *text = getenv(name);
	return text ? strtoul(text, 0, 10) : 0;
}

static int is_refused(void)
{
	static unsigned long requests;
	int refused = ++requests == number_in("REFUSED_REQUEST");
	write((int)number_in("REQUESTS_NOTED_AT"), refused ? "x" : ".", 1);
	return refused;
}

void *malloc(unsigned long size)
{
	return is_refused() ? 0 : __libc_malloc(size);
}

void *realloc(void *at, unsigned long size)
{
	return is_refused() ? 0 : __libc_realloc(at, size);
}
