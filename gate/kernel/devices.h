/* Links that no request makes: that of a CAN card, which qemu emulates, of a USB adapter, of a
 * terminal, and of /dev/net/tun. What follows a link's need `made=` says which. */
#ifndef DEVICES_H
#define DEVICES_H

#include "adapter.h"
#include <errno.h>
#include <fcntl.h>
#include <linux/if_tun.h>
#include <linux/tty.h>
#include <net/if.h>
#include <sys/ioctl.h>
#include <sys/mount.h>
#include <sys/stat.h>
#include <sys/sysmacros.h>
#include <time.h>

/* The files whose closing removes the link. */
static int device_files[2] = {-1, -1};
/* The process that is the adapter, and its port, or that of the next one. */
static pid_t adapter;
static int adapter_port;

static void wait_for(long milliseconds) {
  nanosleep(&(struct timespec){milliseconds / 1000, milliseconds % 1000 * 1000000}, NULL);
}

/* Waits until a link is there or is not, at most for ten seconds, and returns whether it is. */
static bool await_link(const char *name, bool is_there) {
  for (int left = 500; left > 0 && (if_nametoindex(name) != 0) != is_there; left--) wait_for(20);
  return if_nametoindex(name) != 0;
}

static int open_file(const char *path, int flags) {
  int file = open(path, flags);
  if (file < 0) printf("%s: %s\n", path, strerror(errno));
  return file;
}

static void write_file(const char *path, const char *text) {
  int file = open_file(path, O_WRONLY);
  if (file < 0) return;
  if (write(file, text, strlen(text)) < 0) printf("%s: %s\n", path, strerror(errno));
  close(file);
}

static void mount_system(const char *type, const char *path) {
  mkdir(path, 0755);
  if (mount(type, path, type, 0, NULL)) printf("%s: %s\n", path, strerror(errno));
}

/* Binds the driver to the card, at the address that `boot` gives it, or unbinds it. */
static void bind_card(bool is_bound) {
  write_file(is_bound ? "/sys/bus/pci/drivers/kvaser_pci/bind"
                      : "/sys/bus/pci/drivers/kvaser_pci/unbind", "0000:00:10.0");
}

/* Attaches the adapter to the port of the host controller. */
static void attach_adapter(void) {
  enum { HIGH_SPEED = 3 };
  char text[WORD];
  int ends[2];
  if (socketpair(AF_UNIX, SOCK_STREAM, 0, ends)) stop("socketpair: %s", strerror(errno));
  adapter = fork();
  if (adapter == 0) {
    close(ends[0]);
    be_adapter(ends[1]);
    _exit(0);
  }
  snprintf(text, sizeof text, "%d %d 1 %d", adapter_port, ends[0], HIGH_SPEED);
  write_file("/sys/devices/platform/vhci_hcd.0/attach", text);
  close(ends[0]);
  close(ends[1]);
}

/* Detaches it. The port is free again only some time later, so the next one is for the next. */
static void detach_adapter(void) {
  char text[WORD];
  snprintf(text, sizeof text, "%d", adapter_port++);
  write_file("/sys/devices/platform/vhci_hcd.0/detach", text);
  waitpid(adapter, NULL, 0);
}

/* Attaches it, again where its link does not come: on a busy machine the driver can time out. */
static void make_adapter(void) {
  for (int left = 3; left > 0; left--) {
    attach_adapter();
    if (await_link("can0", true)) return;
    detach_adapter();
  }
}

/* A pseudoterminal with the line discipline of CAN over a serial line. */
static void open_terminal(void) {
  const int discipline = N_SLCAN, unlocked = 0;
  device_files[0] = open_file("/dev/pts/ptmx", O_RDWR | O_NOCTTY);
  ioctl(device_files[0], TIOCSPTLCK, &unlocked);
  device_files[1] = ioctl(device_files[0], TIOCGPTPEER, O_RDWR | O_NOCTTY);
  if (ioctl(device_files[1], TIOCSETD, &discipline)) printf("slcan: %s\n", strerror(errno));
}

/* A tun device of a user and a group; a tap device with an inactive queue beside its own. */
static void open_tun(const char *name, bool is_tap) {
  const short tap = IFF_TAP | IFF_NO_PI | IFF_VNET_HDR | IFF_MULTI_QUEUE;
  struct ifreq request = {.ifr_flags = is_tap ? tap : IFF_TUN};
  snprintf(request.ifr_name, IFNAMSIZ, "%.15s", name);
  for (int at = 0; at < 1 + is_tap; at++) {
    device_files[at] = open_file("/dev/net/tun", O_RDWR);
    if (ioctl(device_files[at], TUNSETIFF, &request)) printf("%s: %s\n", name, strerror(errno));
  }
  if (is_tap) {
    ioctl(device_files[1], TUNSETQUEUE, &(struct ifreq){.ifr_flags = IFF_DETACH_QUEUE});
  } else {
    ioctl(device_files[0], TUNSETOWNER, 7L);
    ioctl(device_files[0], TUNSETGROUP, 8L);
  }
}

/* Makes a link of a sort, and returns the name that the kernel gives it. */
static const char *make_device(const char *sort, const char *name) {
  if (!strcmp(sort, "tun") || !strcmp(sort, "tap")) {
    open_tun(name, !strcmp(sort, "tap"));
    return name;
  }
  if (!strcmp(sort, "card")) bind_card(true);
  else if (!strcmp(sort, "terminal")) open_terminal();
  else make_adapter();
  return "can0";
}

static void remove_device(const char *sort, const char *name) {
  if (!strcmp(sort, "card")) bind_card(false);
  if (!strcmp(sort, "adapter")) detach_adapter();
  for (int at = 1; at >= 0; at--) {
    if (device_files[at] >= 0) close(device_files[at]);
    device_files[at] = -1;
  }
  await_link(name, false);
}

/* What these links need of the system, once its modules are loaded. */
static void prepare_devices(void) {
  mount_system("sysfs", "/sys");
  mount_system("devpts", "/dev/pts");
  mkdir("/dev/net", 0755);
  mknod("/dev/net/tun", S_IFCHR | 0600, makedev(10, 200));
  bind_card(false);
}

#endif
