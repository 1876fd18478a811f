/* An operation from its request to its reply: who asks, and that what it was granted stands until it has replied. */
#include "mlsfs.h"

/* Whether the operation may begin: it is asked by the session, or by the kernel, which writes back what the session's
   processes wrote to memory. */
int served_begin(fuse_req_t req, bool by_kernel)
{
	const struct fuse_ctx *caller = fuse_req_ctx(req);
	if (!(by_kernel && caller->pid == 0) && !session_has(caller->pid))
		return EACCES;
	monitor_enter();
	return 0;
}

void served_end(fuse_req_t req, int error)
{
	if (error != REPLIED)
		fuse_reply_err(req, error);
	monitor_leave();
}
