// SPDX-License-Identifier: MIT OR Apache-2.0
/*
 * /dev/vc4check: a job file that is written to it, in one write, is checked by the library in the kernel, and what it says is read from there.
 * An example of how a kernel calls the library, not a driver.
 */
#include <linux/fs.h>
#include <linux/miscdevice.h>
#include <linux/mm.h>
#include <linux/module.h>
#include <linux/mutex.h>
#include <linux/slab.h>
#include <linux/uaccess.h>
#include "../c/vc4check.h"
#include "answer.h"
#include "heap.h"
#include "selftest.h"

enum { MOST_BYTES = 48 << 20 };

/* What was said of the file that was written last, to this opening of the device. */
struct said {
	struct mutex lock;
	char text[ANSWER_ROOM];
};

static int said_open(struct inode *inode, struct file *file)
{
	struct said *said = kzalloc(sizeof(*said), GFP_KERNEL);

	if (!said)
		return -ENOMEM;
	mutex_init(&said->lock);
	file->private_data = said;
	return 0;
}

static int said_release(struct inode *inode, struct file *file)
{
	kfree(file->private_data);
	return 0;
}

/* The file's bytes are copied out of the client's reach, as the library wants. */
static ssize_t said_write(struct file *file, const char __user *from, size_t count, loff_t *place)
{
	struct said *said = file->private_data;
	ssize_t status = count;
	u8 *bytes;

	if (count > MOST_BYTES)
		return -EFBIG;
	bytes = vmemdup_user(from, count);
	if (IS_ERR(bytes))
		return PTR_ERR(bytes);
	mutex_lock(&said->lock);
	said->text[0] = 0;
	if (!answer(bytes, count, said->text)) {
		said->text[0] = 0;
		status = -ENOMEM;
	}
	mutex_unlock(&said->lock);
	kvfree(bytes);
	return status;
}

static ssize_t said_read(struct file *file, char __user *to, size_t count, loff_t *place)
{
	struct said *said = file->private_data;
	ssize_t status;

	mutex_lock(&said->lock);
	status = simple_read_from_buffer(to, count, place, said->text, strlen(said->text));
	mutex_unlock(&said->lock);
	return status;
}

static const struct file_operations operations = {
	.owner = THIS_MODULE,
	.open = said_open,
	.release = said_release,
	.write = said_write,
	.read = said_read,
	.llseek = no_llseek,
};

static struct miscdevice device = {
	.minor = MISC_DYNAMIC_MINOR,
	.name = "vc4check",
	.fops = &operations,
	.mode = 0600,
};

static int __init vc4check_init(void)
{
	if (vc4check_version() != VC4CHECK_VERSION || !selftest())
		return -EINVAL;
	return misc_register(&device);
}

static void __exit vc4check_exit(void)
{
	misc_deregister(&device);
	WARN(heap_held(), "vc4check: %ld blocks were not given back\n", heap_held());
}

module_init(vc4check_init);
module_exit(vc4check_exit);
MODULE_DESCRIPTION("The proved checker of VideoCore IV jobs, as a device");
MODULE_LICENSE("Dual MIT/GPL");
