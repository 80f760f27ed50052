/* answers FILE..: prints of each job file what the library says, linked here; or with --device FILE.. what /dev/vc4check says, which the module of this
 * folder is. Status 0 where each file is read and answered. Compiled with DEVICE_ALONE it has no library in it. */
#include <fcntl.h>
#include <stdbool.h>
#include <stdio.h>
#include <stdlib.h>
#include <string.h>
#include <unistd.h>
#include "answer.h"

static uint8_t bytes[48 << 20];
static char text[ANSWER_ROOM];

static bool ask_device(size_t length)
{
	int device = open("/dev/vc4check", O_RDWR);
	bool answered = device >= 0 && write(device, bytes, length) == (ssize_t)length && read(device, text, sizeof(text) - 1) >= 0;

	if (device >= 0)
		close(device);
	return answered;
}

#ifdef DEVICE_ALONE
bool answer(const uint8_t *file, size_t length, char *into)
{
	(void)file, (void)length, (void)into;
	return false;
}
#endif

int main(int count, char **words)
{
	bool by_device = count > 1 && strcmp(words[1], "--device") == 0, all = true;

	for (int i = 1 + by_device; i < count; i++) {
		FILE *file = fopen(words[i], "rb");
		if (!file)
			return 3;
		size_t length = fread(bytes, 1, sizeof(bytes), file);
		fclose(file);
		memset(text, 0, sizeof(text));
		bool answered = by_device ? ask_device(length) : answer(bytes, length, text);
		printf("== %s\n%s", words[i], answered ? text : "no answer\n");
		all = all && answered;
	}
	return !all;
}
