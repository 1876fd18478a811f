/*
 * Inode numbers are given in order, so they count what others make. What is shown is a permutation of them: a block of
 * 64 bits under Blowfish, by nettle, with a key that is kept beside the files. It need not be a secret for long.
 */
#include "mlsfs.h"
#include <nettle/blowfish.h>
#include <sys/random.h>
#include <sys/xattr.h>

#define KEY "trusted.mls.key"
#define KEY_BYTES 16

static struct blowfish_ctx cipher;

/* Takes the key of a folder, or gives it one. */
bool numbers_open(int folder)
{
	char path[PATH_BYTES];
	uint8_t key[KEY_BYTES];
	path_of(folder, path);
	if (getxattr(path, KEY, key, sizeof key) != sizeof key &&
	    (getrandom(key, sizeof key, 0) != sizeof key || setxattr(path, KEY, key, sizeof key, XATTR_CREATE) != 0))
		return false;
	return blowfish_set_key(&cipher, sizeof key, key) == 1;
}

uint64_t number_shown(uint64_t number)
{
	uint64_t shown;
	blowfish_encrypt(&cipher, sizeof number, (uint8_t *)&shown, (const uint8_t *)&number);
	return shown;
}
