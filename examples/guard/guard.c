/* spav-guard is a proxy between PipeWire's socket and its clients that rewrites the pods of each message, in both
 * directions. dist/spav-guard.help says what it does, that it hides its clients from the daemon, and what its limits are.
 *
 * Each client has a process of its own. So one that breaks a limit ends its own connection alone, all that was held for
 * it is given back, and no client takes another's descriptors.
 * Built over the installed library by: cc guard.c -o spav-guard $(pkg-config --cflags --libs spav) */
#define _GNU_SOURCE
#include <errno.h>
#include <fcntl.h>
#include <inttypes.h>
#include <malloc.h>
#include <poll.h>
#include <signal.h>
#include <stdarg.h>
#include <stdatomic.h>
#include <stdio.h>
#include <stdlib.h>
#include <string.h>
#include <sys/mman.h>
#include <sys/prctl.h>
#include <sys/resource.h>
#include <sys/socket.h>
#include <sys/stat.h>
#include <sys/uio.h>
#include <sys/un.h>
#include <sys/wait.h>
#include <time.h>
#include <unistd.h>
#include <spav.h>
#include "protocol.h"

/* A message begins with four words: the id of its object, its opcode and in 24 bits the length of its pods, its number,
 * and how many descriptors it has. */
enum { HEADER = 16, LENGTH_BITS = 24, LENGTH_MAX = (1 << LENGTH_BITS) - 1 };
/* The objects that each client has from the beginning, the core's event for errors, and the number in errors that answer
 * no request. */
enum { CORE = 0, CLIENT = 1, CORE_ERROR = 3, NO_REQUEST = -1 };
/* Descriptors: of one message, as many as one sendmsg takes; of all that wait in one direction, as in PipeWire. */
enum { MESSAGE_FDS = 253, WAITING_FDS = 1024 };
/* Bytes of buffers that are kept, of the text of an error, and of the message around it; of what stands before a recorded
 * message's pods. */
enum { BLOCK = 1 << 16, TEXT_ROOM = 256, ERROR_ROOM = 512, HEAD_ROOM = 512 };
/* Of how many objects of a client a recording may name the interface: those with ids below this. */
enum { KNOWN_OBJECTS = 1 << 16, EXPORTED = 0x80 };
/* What each recorded message begins with: the program, and the number of the layout. */
#define RECORDED "spav-guard 1"
/* How many milliseconds a client has to read why it is closed, and the listener rests where it can't accept. */
enum { LINGER = 1000, REST = 100 };
/* How many faults are printed for one client, and how deep random bytes go into padding. */
enum { FAULTS_PRINTED = 100, NOISE_LEVELS = 64 };

static struct {
	bool drops, is_verbose;
	unsigned noise;
	int recording;
	size_t clients, of_a_process, bytes;
	const char *behind;
} set = { .recording = -1, .clients = 256, .of_a_process = 64, .bytes = 1 << 18 };

/* What all processes count together. */
static struct {
	_Atomic uint64_t connections, turned_away, closed, messages, refused, changed, descriptors, bytes_in, bytes_out, ns;
} *counts;

/* One direction: what was read and isn't forwarded yet, what waits to be written, and descriptors, of which the first
 * `out_fds` go with the first byte that waits. */
struct stream {
	int from, to;
	uint8_t *in, *out;
	size_t in_at, in_len, in_cap, out_at, out_len, out_cap;
	int fds[WAITING_FDS];
	size_t fd_count, out_fds;
	bool is_at_end, is_shut;
};

/* The two directions of the client that a process serves, and the seed of its noise. */
static struct stream requests, events;
static unsigned seed;
/* What a recording says of the client: the number of its connection, its process or 0, and for each of its objects which
 * of `interfaces` it has, counted from 1, or 0; with EXPORTED, if the client serves it. */
static int32_t connection, process;
static uint8_t known[KNOWN_OBJECTS];

/* The call that this program is about: almost all are pods, and what isn't may convey values all the same. */
static int32_t rewrite(const void *in, size_t n, void *out, size_t cap, size_t *written, size_t *at) {
	return spav_rewrite_leniently(in, n, out, cap, written, at);
}

/* Room for descriptors beside bytes. */
union control {
	struct cmsghdr aligned;
	char room[CMSG_SPACE(MESSAGE_FDS * sizeof(int))];
};

/* Makes a buffer at least this long. Whether there was memory. */
static bool make_room(uint8_t **bytes, size_t *cap, size_t needed) {
	uint8_t *longer = needed > *cap ? realloc(*bytes, needed) : *bytes;
	if (!longer)
		return false;
	*bytes = longer;
	*cap = needed > *cap ? needed : *cap;
	return true;
}

/* Gives a long buffer back, of which nothing is needed. */
static void give_back(uint8_t **bytes, size_t *cap) {
	if (*cap <= BLOCK)
		return;
	free(*bytes);
	*bytes = NULL;
	*cap = 0;
}

/* Closes the first descriptors of a direction. */
static void forget_fds(struct stream *s, size_t count) {
	for (size_t i = 0; i < count; i++)
		close(s->fds[i]);
	memmove(s->fds, s->fds + count, (s->fd_count -= count) * sizeof *s->fds);
}

/* Writes as much of what waits as the socket takes. Whether more can be written to it. */
static bool flush(struct stream *s) {
	union control control;
	while (s->out_at < s->out_len) {
		struct iovec part = { s->out + s->out_at, s->out_len - s->out_at };
		struct msghdr message = { .msg_iov = &part, .msg_iovlen = 1 };
		if (s->out_fds) {
			message.msg_control = &control;
			message.msg_controllen = CMSG_SPACE(s->out_fds * sizeof *s->fds);
			struct cmsghdr *head = CMSG_FIRSTHDR(&message);
			head->cmsg_level = SOL_SOCKET;
			head->cmsg_type = SCM_RIGHTS;
			head->cmsg_len = CMSG_LEN(s->out_fds * sizeof *s->fds);
			memcpy(CMSG_DATA(head), s->fds, s->out_fds * sizeof *s->fds);
		}
		ssize_t sent = sendmsg(s->to, &message, MSG_NOSIGNAL | MSG_DONTWAIT);
		if (sent < 0 && errno == EINTR)
			continue;
		if (sent < 0)
			return errno == EAGAIN;
		s->out_at += (size_t)sent;
		forget_fds(s, s->out_fds);
		s->out_fds = 0;
	}
	s->out_at = s->out_len = 0;
	give_back(&s->out, &s->out_cap);
	return true;
}

/* Puts the core's event of an error behind what waits for the client; nothing, where there is no memory. */
static void queue_error(uint32_t id, int32_t number, int32_t result, const char *why) {
	struct stream *s = &events;
	char text[TEXT_ROOM + 16];
	const uint32_t len = (uint32_t)snprintf(text, sizeof text, "spav-guard: %s", why);
	const struct spav_call calls[] = { spav_push_struct(), spav_add_int((int32_t)id), spav_add_int(number),
		spav_add_int(result), spav_add_string(0, len), spav_pop() };
	size_t n, at;
	if (!make_room(&s->out, &s->out_cap, s->out_len + ERROR_ROOM))
		return;
	uint8_t *to = s->out + s->out_len;
	if (spav_build(calls, sizeof calls / sizeof *calls, text, len, to + HEADER, ERROR_ROOM - HEADER, &n, &at))
		return;
	const uint32_t words[] = { CORE, CORE_ERROR << LENGTH_BITS | (uint32_t)n, (uint32_t)number, 0 };
	memcpy(to, words, HEADER);
	s->out_len += HEADER + n;
}

static int64_t now(clockid_t clock) {
	struct timespec it;
	clock_gettime(clock, &it);
	return (int64_t)it.tv_sec * 1000000000 + it.tv_nsec;
}

/* Ends the connection once the client has read what waits for it, or has had its time. */
static _Noreturn void leave(void) {
	static uint8_t unread[BLOCK];
	const int64_t until = now(CLOCK_MONOTONIC) + (int64_t)LINGER * 1000000;
	while (flush(&events)) {
		struct pollfd waits = { .fd = events.to, .events = events.out_len ? POLLOUT : POLLIN };
		const int64_t left = until - now(CLOCK_MONOTONIC);
		if (!events.out_len)
			shutdown(events.to, SHUT_WR);
		if (left <= 0 || poll(&waits, 1, (int)(left / 1000000) + 1) <= 0)
			break;
		if (!events.out_len && recv(events.to, unread, sizeof unread, MSG_DONTWAIT) <= 0)
			break;
	}
	_exit(0);
}

/* Sends the client an error, and ends the connection. */
__attribute__((__format__(__printf__, 3, 4))) static _Noreturn void give_up(int32_t number, int32_t result,
	const char *format, ...) {
	char text[TEXT_ROOM];
	va_list more;
	va_start(more, format);
	vsnprintf(text, sizeof text, format, more);
	va_end(more);
	counts->closed++;
	if (set.is_verbose)
		fprintf(stderr, "spav-guard: process %d: closed: %s\n", (int)getpid(), text);
	queue_error(CORE, number, result, text);
	leave();
}

/* Takes the descriptors that came with a message over. Whether they are as many as may wait. */
static bool take_fds(struct stream *s, struct msghdr *message) {
	bool fits = !(message->msg_flags & MSG_CTRUNC);
	for (struct cmsghdr *it = CMSG_FIRSTHDR(message); it; it = CMSG_NXTHDR(message, it)) {
		if (it->cmsg_level != SOL_SOCKET || it->cmsg_type != SCM_RIGHTS)
			continue;
		size_t count = (it->cmsg_len - CMSG_LEN(0)) / sizeof *s->fds;
		fits = fits && count <= WAITING_FDS - s->fd_count;
		if (!fits)
			break;
		memcpy(s->fds + s->fd_count, CMSG_DATA(it), count * sizeof *s->fds);
		s->fd_count += count;
	}
	return fits;
}

/* Reads what is there, with its descriptors. No more is held than the longest message takes. */
static void receive(struct stream *s) {
	union control control;
	if (s->in_at)
		memmove(s->in, s->in + s->in_at, s->in_len -= s->in_at);
	s->in_at = 0;
	if (s->in_len == s->in_cap) {
		size_t most = set.bytes < BLOCK ? BLOCK : set.bytes, cap = s->in_cap ? 2 * s->in_cap : BLOCK;
		if (!make_room(&s->in, &s->in_cap, cap < HEADER + most ? cap : HEADER + most))
			give_up(NO_REQUEST, -ENOMEM, "no memory for a message");
	}
	struct iovec part = { s->in + s->in_len, s->in_cap - s->in_len };
	struct msghdr message = { .msg_iov = &part, .msg_iovlen = 1 };
	message.msg_control = &control;
	message.msg_controllen = sizeof control;
	ssize_t got = recvmsg(s->from, &message, MSG_CMSG_CLOEXEC | MSG_DONTWAIT);
	if (got < 0 && (errno == EINTR || errno == EAGAIN))
		return;
	s->is_at_end = got <= 0;
	s->in_len += got > 0 ? (size_t)got : 0;
	if (got > 0 && !take_fds(s, &message))
		give_up(NO_REQUEST, -EMFILE, "more than %d descriptors wait for their messages", WAITING_FDS);
}

/* Puts random bytes into the padding of pods and of what is inside them, but not below NOISE_LEVELS. */
static void add_noise(struct spav_walk walk, unsigned levels) {
	struct spav_pod pod;
	while (levels && spav_next(&walk, &pod)) {
		uint8_t *bytes = (uint8_t *)(uintptr_t)pod.bytes;
		for (size_t i = 8 + (size_t)pod.size; i < pod.whole; i++)
			bytes[i] = (uint8_t)rand_r(&seed);
		add_noise(spav_walk_inside(&pod), levels - 1);
	}
}

/* Counts a message that conveys no values, or for which there was no memory, and puts into words what its fault is. */
static void describe(const uint32_t *words, const uint8_t *pods, size_t n, int32_t answer, char *text, size_t room) {
	static unsigned printed;
	uint32_t kind = 0;
	size_t top = 0, at = 0;
	counts->refused++;
	const bool has_fault = answer == -EINVAL && spav_fault(pods, n, &kind, &top, &at) == 0 && kind;
	const char *why = has_fault ? spav_fault_text(kind) : answer == -ENOMEM ? "no memory" : "no values";
	snprintf(text, room, "%s: object %u, opcode %u, %zu bytes: byte %zu, in the pod at %zu: %s",
		set.drops ? "dropped" : "refused", words[0], words[1] >> LENGTH_BITS, n, at, top, why);
	if (set.is_verbose && printed++ < FAULTS_PRINTED)
		fprintf(stderr, "spav-guard: process %d: %s\n", (int)getpid(), text);
}

/* The number of an interface, counted from 1; 0 where it isn't known. */
static uint8_t interface_of(const char *type, size_t len) {
	uint8_t i = sizeof interfaces / sizeof *interfaces;
	while (i && (strlen(interfaces[i - 1].type) != len || memcmp(interfaces[i - 1].type, type, len)))
		i--;
	return i;
}

/* What an object and an opcode are called: an interface or NULL, a method or event or an empty text. */
struct names {
	const char *interface;
	char method[32];
};

static struct names names_of(const struct stream *s, const uint32_t *words) {
	struct names names = { 0 };
	const uint8_t number = words[0] < KNOWN_OBJECTS ? known[words[0]] : 0;
	if (!number)
		return names;
	const struct interface *it = interfaces + (number & ~EXPORTED) - 1;
	const size_t prefix = strlen(PIPEWIRE);
	names.interface = it->type + (strncmp(it->type, PIPEWIRE, prefix) == 0 ? prefix : 0);
	const char *word = (s == &requests) == !(number & EXPORTED) ? it->methods : it->events;
	for (uint32_t i = words[1] >> LENGTH_BITS; i && *word; i--)
		word += strcspn(word, " ") + (word[strcspn(word, " ")] == ' ');
	snprintf(names.method, sizeof names.method, "%.*s", (int)strcspn(word, " "), word);
	return names;
}

static bool is_method(const struct names *names, const char *interface, const char *method) {
	return names->interface && strcmp(names->interface, interface) == 0 && strcmp(names->method, method) == 0;
}

/* The member of this number of the struct at the front. Whether it is there, of this type; where a text begins. */
static bool has_member(const uint8_t *pods, size_t n, size_t number, uint32_t type, struct spav_item *item,
	const char **text) {
	size_t at;
	if (spav_member(pods, n, number, &at) || spav_front_item(pods + at, n - at, item) || item->type != type)
		return false;
	*text = (const char *)pods + at + (type == SPAV_TYPE_String ? item->first : 0);
	return true;
}

/* Notes what a message that is forwarded says of an object's interface. */
static void learn(const struct names *names, const uint8_t *pods, size_t n) {
	const struct assignment *it = assignments, *end_of_it = it + sizeof assignments / sizeof *assignments;
	struct spav_item object, type;
	const char *text;
	while (it < end_of_it && !is_method(names, it->interface, it->method))
		it++;
	if (it == end_of_it || !has_member(pods, n, it->object, SPAV_TYPE_Int, &object, &text) || object.first >= KNOWN_OBJECTS)
		return;
	uint8_t number = it->gives ? interface_of(it->gives, strlen(it->gives)) : 0;
	if (!it->gives && has_member(pods, n, 1, SPAV_TYPE_String, &type, &text))
		number = interface_of(text, type.second);
	if (number && interfaces[number - 1].is_exported && is_method(names, "Core", "create_object"))
		number |= EXPORTED;
	known[object.first] = number;
}

/* Appends a message to the recording, as docs/FORMAT.md, "Recorded messages", says. Where that fails, no further message of
 * this client is recorded. */
static void record(const struct stream *s, const uint32_t *words, const struct names *names, const uint8_t *pods, size_t n) {
	static const uint8_t zeros[8];
	char texts[TEXT_ROOM];
	uint8_t head[HEAD_ROOM];
	size_t size = 0, at;
	const uint32_t mark = sizeof RECORDED - 1, of = names->interface ? (uint32_t)strlen(names->interface) : 0;
	const uint32_t len = (uint32_t)strlen(names->method);
	snprintf(texts, sizeof texts, "%s%s%s", RECORDED, of ? names->interface : "", names->method);
	const struct spav_call calls[] = { spav_push_struct(), spav_add_string(0, mark), spav_add_long(now(CLOCK_REALTIME)),
		spav_add_bool(s == &requests), spav_add_int(connection), spav_add_int(process), spav_add_int((int32_t)words[0]),
		spav_add_int((int32_t)(words[1] >> LENGTH_BITS)), of ? spav_add_string(mark, of) : spav_add_none(),
		len ? spav_add_string(mark + of, len) : spav_add_none(), spav_pop() };
	errno = -spav_build(calls, sizeof calls / sizeof *calls, texts, mark + of + len, head, sizeof head, &size, &at);
	/* The message's pods are the struct's further members, whatever they are. */
	const uint32_t body = (uint32_t)(size - 8 + n);
	memcpy(head, &body, sizeof body);
	const struct iovec parts[] = { { head, size }, { (void *)(uintptr_t)pods, n }, { (void *)(uintptr_t)zeros, -n % 8 } };
	if (errno || writev(set.recording, parts, 3) != (ssize_t)(size + n + -n % 8)) {
		fprintf(stderr, "spav-guard: the recording of client %d ends: %s\n", connection, strerror(errno ? errno : ENOSPC));
		set.recording = -1;
	}
}

/* Puts a whole message behind what waits, rewritten where its pods can be; or drops it and puts an error there. */
static void forward(struct stream *s, uint8_t *message, size_t n, size_t fd_count) {
	uint8_t *pods = message + HEADER;
	uint32_t words[4];
	size_t written, at;
	char text[TEXT_ROOM];
	memcpy(words, message, sizeof words);
	const int32_t number = s == &requests ? (int32_t)words[2] : NO_REQUEST;
	if (!make_room(&s->out, &s->out_cap, HEADER + n))
		give_up(number, -ENOMEM, "no memory for a message of %zu bytes", n);
	if (set.noise && spav_check(pods, n, &at) == 0)
		add_noise(spav_walk_pods(pods, n), NOISE_LEVELS);
	struct names names = { 0 };
	if (set.recording >= 0) {
		names = names_of(s, words);
		record(s, words, &names, pods, n);
	}
	const int64_t before = now(CLOCK_MONOTONIC);
	const int32_t answer = rewrite(pods, n, s->out + HEADER, n, &written, &at);
	counts->ns += (uint64_t)(now(CLOCK_MONOTONIC) - before);
	counts->messages++;
	counts->bytes_in += n;
	counts->descriptors += fd_count;
	if (answer)
		describe(words, pods, n, answer, text, sizeof text);
	if (answer && set.drops) {
		forget_fds(s, fd_count);
		queue_error(words[0], number, answer, text);
		return;
	}
	if (answer)
		memcpy(s->out + HEADER, pods, written = n);
	else if (set.recording >= 0)
		learn(&names, s->out + HEADER, written);
	counts->changed += written != n || memcmp(s->out + HEADER, pods, n);
	counts->bytes_out += written;
	words[1] = (words[1] >> LENGTH_BITS << LENGTH_BITS) | (uint32_t)written;
	memcpy(s->out, words, HEADER);
	s->out_len = HEADER + written;
	s->out_fds = fd_count;
}

/* Whether the next message has to wait: for the one before it; where it may be dropped, for what the client reads. */
static bool is_blocked(const struct stream *s) {
	return s->out_len || (set.drops && events.out_len);
}

/* Whether the front of what was read is a whole message. One that breaks a limit ends the connection. */
static bool has_message(const struct stream *s, size_t *n, size_t *fd_count) {
	uint32_t words[4];
	if (s->in_len - s->in_at < HEADER)
		return false;
	memcpy(words, s->in + s->in_at, sizeof words);
	const int32_t number = s == &requests ? (int32_t)words[2] : NO_REQUEST;
	*n = words[1] & LENGTH_MAX;
	*fd_count = words[3];
	if (*n > set.bytes)
		give_up(number, -EMSGSIZE, "a message of %zu bytes, of which at most %zu are forwarded", *n, set.bytes);
	if (*fd_count > MESSAGE_FDS)
		give_up(number, -EMFILE, "a message of %zu descriptors, of which at most %d are forwarded", *fd_count, MESSAGE_FDS);
	if (s->in_len - s->in_at - HEADER < *n)
		return false;
	if (*fd_count > s->fd_count)
		give_up(number, -EPROTO, "a message of %zu descriptors, of which %zu came", *fd_count, s->fd_count);
	return true;
}

/* Writes what waits, forwards the whole messages that were read until one has to wait, and ends what is at its end. */
static void go_on(struct stream *s) {
	size_t n, fd_count;
	bool can_write = flush(s);
	while (can_write && !is_blocked(s) && has_message(s, &n, &fd_count)) {
		forward(s, s->in + s->in_at, n, fd_count);
		s->in_at += HEADER + n;
		can_write = flush(s);
	}
	if (s->in_at == s->in_len) {
		s->in_at = s->in_len = 0;
		give_back(&s->in, &s->in_cap);
	}
	if (!can_write && s == &events)
		_exit(0);
	if (!can_write)
		give_up(NO_REQUEST, -errno, "the daemon can't be written to: %s", strerror(errno));
	/* Nothing is read, so no end is seen, while a message waits. */
	if (!s->is_at_end || s->is_shut)
		return;
	if (s->in_len)
		give_up(NO_REQUEST, -EPROTO, "the bytes end within a message");
	if (s == &events)
		leave();
	s->is_shut = true;
	shutdown(s->to, SHUT_WR);
}

/* Serves one client until it, or the daemon, is at its end. */
static _Noreturn void serve(int client) {
	struct stream *both[] = { &requests, &events };
	for (;;) {
		struct pollfd waits[] = { { .fd = client }, { .fd = events.from } };
		for (int i = 0; i < 2; i++) {
			waits[i].events |= both[i]->is_at_end || is_blocked(both[i]) ? 0 : POLLIN;
			waits[1 - i].events |= both[i]->out_len ? POLLOUT : 0;
		}
		/* A socket of which nothing is wanted would wake this at its end, again and again. */
		for (int i = 0; i < 2; i++)
			waits[i].fd = waits[i].events ? waits[i].fd : -1;
		if (poll(waits, 2, -1) < 0 && errno != EINTR)
			_exit(1);
		for (int i = 0; i < 2; i++)
			if (waits[i].revents && waits[i].events & POLLIN)
				receive(both[i]);
		go_on(&events);
		go_on(&requests);
	}
}

/* The address of this path. Whether it is short enough. */
static bool has_address(const char *path, struct sockaddr_un *address) {
	*address = (struct sockaddr_un){ .sun_family = AF_UNIX };
	if (strlen(path) >= sizeof address->sun_path) {
		errno = ENAMETOOLONG;
		return false;
	}
	memcpy(address->sun_path, path, strlen(path) + 1);
	return true;
}

/* A socket that is connected to this path; -1 where that isn't possible. */
static int connect_to(const char *path, int flags) {
	struct sockaddr_un address;
	if (!has_address(path, &address))
		return -1;
	int fd = socket(AF_UNIX, SOCK_STREAM | SOCK_CLOEXEC | flags, 0);
	if (fd < 0 || connect(fd, (const struct sockaddr *)&address, sizeof address) == 0)
		return fd;
	const int cause = errno;
	close(fd);
	errno = cause;
	return -1;
}

/* Whether nothing is at this path any more: a socket at which nobody listens is removed, and nothing else. */
static bool makes_way(const char *path) {
	struct stat there;
	if (lstat(path, &there))
		return errno == ENOENT;
	if (!S_ISSOCK(there.st_mode)) {
		errno = EEXIST;
		return false;
	}
	int fd = connect_to(path, SOCK_NONBLOCK);
	if (fd < 0 && errno == ECONNREFUSED)
		return unlink(path) == 0;
	if (fd >= 0)
		close(fd);
	errno = EADDRINUSE;
	return false;
}

/* A socket that listens at this path, for its owner alone, and what is there; -1 where that isn't possible. */
static int listen_at(const char *path, struct stat *there) {
	struct sockaddr_un address;
	if (!has_address(path, &address) || !makes_way(path))
		return -1;
	const mode_t before = umask(0077);
	int fd = socket(AF_UNIX, SOCK_STREAM | SOCK_CLOEXEC | SOCK_NONBLOCK, 0);
	if (fd >= 0 && (bind(fd, (const struct sockaddr *)&address, sizeof address) || listen(fd, 128) || lstat(path, there)))
		fd = -1;
	umask(before);
	return fd;
}

/* What a client's process begins with: signals as usual, an end with the listener's, and descriptors enough. */
static _Noreturn void begin(int client, pid_t listener, const sigset_t *none) {
	struct rlimit fds;
	signal(SIGTERM, SIG_DFL);
	signal(SIGINT, SIG_DFL);
	signal(SIGCHLD, SIG_DFL);
	sigprocmask(SIG_SETMASK, none, NULL);
	if (prctl(PR_SET_PDEATHSIG, SIGTERM) || getppid() != listener)
		_exit(1);
	const rlim_t wanted = 2 * WAITING_FDS + 16;
	if (getrlimit(RLIMIT_NOFILE, &fds) == 0 && fds.rlim_cur < wanted) {
		fds.rlim_cur = fds.rlim_max < wanted ? fds.rlim_max : wanted;
		setrlimit(RLIMIT_NOFILE, &fds);
	}
	seed = set.noise + (unsigned)connection;
	known[CORE] = interface_of(PIPEWIRE "Core", strlen(PIPEWIRE "Core"));
	known[CLIENT] = interface_of(PIPEWIRE "Client", strlen(PIPEWIRE "Client"));
	requests.from = events.to = client;
	const int daemon = connect_to(set.behind, 0);
	if (daemon < 0)
		give_up(NO_REQUEST, -errno, "the daemon can't be reached: %s", strerror(errno));
	requests.to = events.from = daemon;
	serve(client);
}

/* The processes that serve clients, and whose clients these are. */
struct served {
	pid_t by, process;
};
static struct served *served;
static size_t served_count;

/* Forgets the processes that are at their end. */
static void reap(void) {
	int status;
	for (pid_t pid; (pid = waitpid(-1, &status, WNOHANG)) > 0;) {
		size_t i = 0;
		while (i < served_count && served[i].by != pid)
			i++;
		if (WIFSIGNALED(status))
			fprintf(stderr, "spav-guard: process %d: ended by signal %d\n", (int)pid, WTERMSIG(status));
		if (i < served_count)
			served[i] = served[--served_count];
	}
}

/* Sends a client an error, in place of serving it. */
static void turn_away(int client, int32_t result, const char *text) {
	static uint8_t unread[BLOCK];
	counts->turned_away++;
	events.to = client;
	queue_error(CORE, NO_REQUEST, result, text);
	flush(&events);
	events.out_at = events.out_len = 0;
	shutdown(client, SHUT_WR);
	/* What it has sent and nobody has read would have the kernel reset the connection. */
	recv(client, unread, sizeof unread, MSG_DONTWAIT);
}

/* Accepts a client, and starts its process. Whether others can be accepted now. */
static bool accept_one(int listener, const sigset_t *none) {
	struct ucred peer = { 0 };
	socklen_t len = sizeof peer;
	int client = accept4(listener, NULL, NULL, SOCK_CLOEXEC);
	if (client < 0)
		return errno == EINTR || errno == EAGAIN || errno == ECONNABORTED;
	getsockopt(client, SOL_SOCKET, SO_PEERCRED, &peer, &len);
	size_t of_it = 0;
	for (size_t i = 0; i < served_count; i++)
		of_it += served[i].process == peer.pid;
	const pid_t here = getpid();
	connection = (int32_t)counts->connections + 1;
	process = peer.pid;
	const bool fits = served_count < set.clients && of_it < set.of_a_process;
	const pid_t pid = fits ? fork() : -1;
	if (pid == 0) {
		close(listener);
		begin(client, here, none);
	}
	counts->connections += pid > 0;
	if (pid > 0)
		served[served_count++] = (struct served){ pid, peer.pid };
	else if (fits)
		turn_away(client, -errno, "no process could be started");
	else
		turn_away(client, -EUSERS, served_count < set.clients ? "too many connections of one process" : "too many clients");
	if (set.is_verbose)
		fprintf(stderr, "spav-guard: process %d: client %d of user %u%s\n", (int)pid, (int)peer.pid, (unsigned)peer.uid,
			pid > 0 ? "" : ": turned away");
	close(client);
	return true;
}

static volatile sig_atomic_t is_ended;
static void end(int number) {
	is_ended |= number != SIGCHLD;
}

/* Accepts clients until a signal ends it. */
static void accept_all(int listener) {
	struct sigaction at_signal = { .sa_handler = end };
	const int numbers[] = { SIGTERM, SIGINT, SIGCHLD };
	sigset_t none, blocked;
	sigemptyset(&none);
	sigemptyset(&blocked);
	for (int i = 0; i < 3; i++)
		sigaddset(&blocked, numbers[i]);
	/* They come while this waits, and at no other time. */
	sigprocmask(SIG_BLOCK, &blocked, NULL);
	for (int i = 0; i < 3; i++)
		sigaction(numbers[i], &at_signal, NULL);
	for (bool rests = false; !is_ended;) {
		const struct timespec rest = { 0, REST * 1000000 };
		struct pollfd waits = { .fd = rests ? -1 : listener, .events = POLLIN };
		const int ready = ppoll(&waits, 1, rests ? &rest : NULL, &none);
		reap();
		rests = ready == 1 && !accept_one(listener, &none);
	}
	for (size_t i = 0; i < served_count; i++)
		kill(served[i].by, SIGTERM);
	while (wait(NULL) > 0 || errno == EINTR)
		;
}

/* Reads a number between two others. Whether it is one. */
static bool read_number(const char *text, size_t least, size_t most, size_t *number) {
	char *end_of_it;
	errno = 0;
	const unsigned long long read = strtoull(text, &end_of_it, 10);
	*number = (size_t)read;
	return *text >= '0' && *text <= '9' && !*end_of_it && !errno && read >= least && read <= most;
}

/* Takes the options. Whether they and two paths are there. */
static bool take_options(int argc, char **argv) {
	size_t noise = 0;
	bool fits = true;
	for (int word; (word = getopt(argc, argv, "dvc:n:p:s:w:")) != -1;) {
		set.drops |= word == 'd';
		set.is_verbose |= word == 'v';
		fits = fits && word != '?';
		fits = fits && (word != 'c' || read_number(optarg, 1, 1 << 16, &set.clients));
		fits = fits && (word != 'n' || read_number(optarg, 0, UINT32_MAX, &noise));
		fits = fits && (word != 'p' || read_number(optarg, 1, 1 << 16, &set.of_a_process));
		fits = fits && (word != 's' || read_number(optarg, 1, LENGTH_MAX, &set.bytes));
		if (fits && word == 'w' && (set.recording = open(optarg, O_WRONLY | O_CREAT | O_APPEND | O_CLOEXEC, 0600)) < 0) {
			perror(optarg);
			exit(2);
		}
	}
	set.noise = (unsigned)noise;
	return fits && argc - optind == 2;
}

/* Prints what was counted. Whether that was possible. */
static bool print_counts(void) {
	const struct {
		const char *name;
		uint64_t count;
	} rows[] = { { "connections", counts->connections }, { "turned away", counts->turned_away },
		{ "closed", counts->closed }, { "messages", counts->messages }, { "refused", counts->refused },
		{ "changed", counts->changed }, { "descriptors", counts->descriptors }, { "bytes", counts->bytes_in },
		{ "rewritten", counts->bytes_out }, { "ns a message", counts->messages ? counts->ns / counts->messages : 0 } };
	for (size_t i = 0; i < sizeof rows / sizeof *rows; i++)
		printf("%s %" PRIu64 "\n", rows[i].name, rows[i].count);
	return fflush(stdout) == 0;
}

int main(int argc, char **argv) {
	struct stat ours, there;
	if (!take_options(argc, argv)) {
		fprintf(stderr, "usage: spav-guard [-dv] [-c CLIENTS] [-n SEED] [-p CLIENTS] [-s BYTES] [-w FILE] LISTEN CONNECT\n");
		return 2;
	}
	const char *path = argv[optind];
	set.behind = argv[optind + 1];
	signal(SIGPIPE, SIG_IGN);
	/* Long buffers go back to the system when they are freed. */
	mallopt(M_MMAP_THRESHOLD, BLOCK);
	counts = mmap(NULL, sizeof *counts, PROT_READ | PROT_WRITE, MAP_SHARED | MAP_ANONYMOUS, -1, 0);
	served = calloc(set.clients, sizeof *served);
	if (counts == MAP_FAILED || !served) {
		perror("spav-guard");
		return 2;
	}
	const int listener = listen_at(path, &ours);
	if (listener < 0) {
		fprintf(stderr, "spav-guard: %s: %s\n", path, strerror(errno));
		return 2;
	}
	accept_all(listener);
	/* What has come into the place of its socket isn't its own. */
	if (lstat(path, &there) == 0 && there.st_dev == ours.st_dev && there.st_ino == ours.st_ino)
		unlink(path);
	return print_counts() ? 0 : 2;
}
