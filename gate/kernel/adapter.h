/* A USB adapter for CAN FD with one channel and a termination, of those that the driver gs_usb
 * drives, behind vhci_hcd, the kernel's host controller for devices that are elsewhere. Its
 * requests come over a socket, by the protocol of Documentation/usb/usbip_protocol.rst; a process
 * of its own answers them. */
#ifndef ADAPTER_H
#define ADAPTER_H

#include "lists.h"
#include <arpa/inet.h>
#include <errno.h>
#include <sys/socket.h>
#include <sys/wait.h>
#include <unistd.h>

/* The commands of that protocol, and the words of a packet that differ. */
enum { SUBMIT = 1, UNLINK = 2, SUBMITTED = 3, UNLINKED = 4 };
enum { COMMAND = 0, NUMBER = 1, IS_INPUT = 3, ENDPOINT = 4, STATUS = 5, LENGTH = 6, SETUP = 10 };

/* bRequest of struct usb_ctrlrequest: those of the driver are for an interface, of type vendor. */
enum { GET_STATUS = 0, GET_DESCRIPTOR = 6, VENDOR_INPUT = 0xc1, DEVICE_INPUT = 0x80 };
enum { LIMITS = 4, CHANNELS = 5, LIMITS_OF_FD = 11, GET_TERMINATION = 13, GET_STATE = 14 };
enum { DEVICE = 1, CONFIGURATION = 2 };

/* struct usb_device_descriptor: 1d50:606f. */
static const uint8_t adapter_device[] = {18, DEVICE, 0, 2, 0, 0, 0, 64, 0x50, 0x1d, 0x6f, 0x60,
                                         0,  0,      0, 0, 0, 1};

/* struct usb_config_descriptor, usb_interface_descriptor, and two of bulk endpoints. */
static const uint8_t adapter_configuration[] = {
    9, CONFIGURATION, 32, 0, 1, 1, 0, 0x80, 50, 9, 4, 0, 0, 2, 0xff, 0xff, 0xff, 0,
    7, 5, 0x81, 2, 0, 2, 0, 7, 5, 2, 2, 0, 2, 0};

/* struct gs_device_bt_const_extended: features, here listening only, loops, one shot, FD, these
 * constants, termination, error reports and counters; the clock; limits of both bit timings. */
static const uint32_t adapter_limits[] = {0x3d0b, 80000000, 1,  256, 1,  128, 128, 1,  512,
                                          1,      1,        32, 1,   16, 16,  1,   32, 1};

/* struct gs_device_config, gs_device_state (stopped, and counters), gs_device_termination_state. */
static const uint32_t adapter_channels[] = {0, 2, 1}, adapter_state[] = {4, 3, 5};
static const uint32_t adapter_termination = 0;

/* What the adapter sends for a control request, or NULL, and its length. */
static const void *adapter_answer(const uint8_t setup[8], size_t *length) {
  unsigned request = setup[0] << 8 | setup[1];
  *length = sizeof adapter_state;
  switch (request) {
    case VENDOR_INPUT << 8 | CHANNELS: return adapter_channels;
    case VENDOR_INPUT << 8 | GET_STATE: return adapter_state;
    case VENDOR_INPUT << 8 | LIMITS: return *length = 40, adapter_limits;
    case VENDOR_INPUT << 8 | LIMITS_OF_FD: return *length = sizeof adapter_limits, adapter_limits;
    case VENDOR_INPUT << 8 | GET_TERMINATION: return *length = 4, &adapter_termination;
    case DEVICE_INPUT << 8 | GET_STATUS: return *length = 2, &adapter_termination;
    case DEVICE_INPUT << 8 | GET_DESCRIPTOR: break;
    default: return NULL;
  }
  *length = setup[3] == DEVICE ? sizeof adapter_device : sizeof adapter_configuration;
  return setup[3] == DEVICE ? adapter_device
         : setup[3] == CONFIGURATION ? adapter_configuration : NULL;
}

/* Answers a packet, and what is sent with it, which is accepted. */
static void answer_packet(int socket, const uint32_t packet[12]) {
  uint32_t reply[12] = {[NUMBER] = packet[NUMBER]};
  size_t asked = ntohl(packet[LENGTH]), length = asked;
  const void *bytes = NULL;
  reply[COMMAND] = htonl(SUBMITTED);
  if (ntohl(packet[COMMAND]) == UNLINK) {
    reply[COMMAND] = htonl(UNLINKED);
    reply[STATUS] = htonl((uint32_t)-ECONNRESET);
    length = 0;
  } else if (packet[IS_INPUT]) {
    bytes = adapter_answer((const uint8_t *)(packet + SETUP), &length);
    if (!bytes) reply[STATUS] = htonl((uint32_t)-EPIPE);
    if (!bytes) length = 0;
    if (length > asked) length = asked;
  }
  reply[LENGTH] = htonl((uint32_t)length);
  send(socket, reply, sizeof reply, 0);
  if (bytes) send(socket, bytes, length, 0);
}

/* Answers all packets to the control endpoint, until the socket is closed. */
static void be_adapter(int socket) {
  uint32_t packet[12];
  uint8_t sent[4096];
  while (recv(socket, packet, sizeof packet, MSG_WAITALL) == sizeof packet) {
    size_t length = ntohl(packet[LENGTH]);
    bool has_output = ntohl(packet[COMMAND]) == SUBMIT && !packet[IS_INPUT] && length > 0;
    if (has_output) recv(socket, sent, length < sizeof sent ? length : sizeof sent, MSG_WAITALL);
    if (!packet[ENDPOINT]) answer_packet(socket, packet);
  }
}

#endif
