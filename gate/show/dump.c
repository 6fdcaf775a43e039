/*
 * Preloaded into `ip` by gate/show/ip_of: what a netlink socket of `ip` returns is not from the
 * kernel. The file that the variable DUMP names, messages of links, answers a dump of links;
 * nothing answers another dump, and the error ENODEV any other request.
 */
#include <errno.h>
#include <linux/netlink.h>
#include <linux/rtnetlink.h>
#include <stdio.h>
#include <stdlib.h>
#include <string.h>
#include <sys/socket.h>

#define MOST (1 << 20)

static char reply[MOST + NLMSG_SPACE(sizeof(struct nlmsgerr))];
static size_t length;

static size_t read_dump(void)
{
	const char *path = getenv("DUMP");
	FILE *file = path ? fopen(path, "rb") : NULL;
	size_t count;

	if (!file)
		abort();
	count = fread(reply, 1, MOST, file);
	fclose(file);
	return count;
}

/* Each message of a reply has the number of the request and the port of its socket. */
static void address(int socket, const struct nlmsghdr *request)
{
	struct sockaddr_nl own = { 0 };
	socklen_t size = sizeof(own);
	size_t at = 0;

	if (getsockname(socket, (struct sockaddr *)&own, &size))
		abort();
	while (at < length) {
		struct nlmsghdr *header = (struct nlmsghdr *)(reply + at);

		header->nlmsg_seq = request->nlmsg_seq;
		header->nlmsg_pid = own.nl_pid;
		at += NLMSG_ALIGN(header->nlmsg_len);
	}
}

static void answer(int socket, const struct nlmsghdr *request)
{
	int is_dump = (request->nlmsg_flags & NLM_F_DUMP) == NLM_F_DUMP;
	struct nlmsghdr *last;

	length = is_dump && request->nlmsg_type == RTM_GETLINK ? read_dump() : 0;
	last = (struct nlmsghdr *)(reply + length);
	memset(last, 0, NLMSG_SPACE(sizeof(struct nlmsgerr)));
	if (is_dump) {
		last->nlmsg_type = NLMSG_DONE;
		last->nlmsg_flags = NLM_F_MULTI;
		last->nlmsg_len = NLMSG_LENGTH(sizeof(int));
	} else {
		struct nlmsgerr *error = NLMSG_DATA(last);

		last->nlmsg_type = NLMSG_ERROR;
		last->nlmsg_len = NLMSG_LENGTH(sizeof(*error));
		error->error = -ENODEV;
		error->msg = *request;
	}
	length += NLMSG_ALIGN(last->nlmsg_len);
	address(socket, request);
}

ssize_t send(int socket, const void *data, size_t size, int flags)
{
	(void)flags;
	answer(socket, data);
	return size;
}

ssize_t sendmsg(int socket, const struct msghdr *message, int flags)
{
	(void)flags;
	answer(socket, message->msg_iov[0].iov_base);
	return message->msg_iov[0].iov_len;
}

ssize_t recvmsg(int socket, struct msghdr *message, int flags)
{
	size_t count = length;

	(void)socket;
	message->msg_flags = 0;
	memset(message->msg_name, 0, message->msg_namelen);
	if (count == 0) {
		errno = EAGAIN;
		return -1;
	}
	if (!(flags & MSG_PEEK)) {
		if (count > message->msg_iov[0].iov_len)
			abort();
		memcpy(message->msg_iov[0].iov_base, reply, count);
		length = 0;
	}
	return count;
}
