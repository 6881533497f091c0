// A program of tests, like those that `rt test` leaves. Each test takes some memory, and does as its name says where it
// gets none. parts/refused_crates.py must find the wrong tests.
#include <stdio.h>
#include <stdlib.h>
#include <string.h>
#include <unistd.h>

static const char *tests[] = {"reports", "compares", "answers none", "asks again", "loses a byte", "finds none",
			      "takes a fault for nothing", "ends by a signal", "is silent", "waits"};

static void say(const char *text)
{
	if (write(2, text, strlen(text)) < 0)
		_exit(3);
}

// What a test does where it gets no memory.
static void starve(const char *name)
{
	if (!strcmp(name, "reports")) {
		say("error: OutOfMemory\n");
		_exit(1);
	}
	if (!strcmp(name, "compares")) {
		say("test stopped at src/tests.rt:1:1\nassertion `left == right` failed\n  left: Err(OutOfMemory)\n right: Ok(1)\n");
		abort();
	}
	if (!strcmp(name, "answers none") || !strcmp(name, "finds none")) {
		say("test stopped at src/tests.rt:1:1\nassertion `left == right` failed\n  left: None\n right: Some(1)\n");
		abort();
	}
	if (!strcmp(name, "asks again") && malloc(8))
		return;
	if (!strcmp(name, "loses a byte")) {
		say("test stopped at src/tests.rt:1:1\nassertion `left == right` failed\n  left: Ok(1)\n right: Ok(2)\n");
		abort();
	}
	if (!strcmp(name, "takes a fault for nothing")) {
		say("test stopped at src/tests.rt:1:1\nassertion failed\n");
		abort();
	}
	if (!strcmp(name, "ends by a signal")) {
		say("error: OutOfMemory\n");
		abort();
	}
	if (!strcmp(name, "waits"))
		pause();
	_exit(1);
}

int main(int count, char **words)
{
	const char *name = count > 1 ? words[1] : "";
	char *memory;

	if (!strcmp(name, "--list")) {
		for (size_t place = 0; place < sizeof tests / sizeof *tests; place++)
			printf("%s: test\n", tests[place]);
		return 0;
	}
	memory = malloc(8);
	if (!memory)
		starve(name);
	return 0;
}
