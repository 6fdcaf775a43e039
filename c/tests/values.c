/* Worked values: an attribute in the data of a kind, and what it means by the rows of
 * docs/FORMAT.md. */
#include "values.h"
#include <stdio.h>

#define NONE {.value_type = LINKINFO_VALUE_NONE}
#define NUMBER(n) {.value_type = LINKINFO_VALUE_NUMBER, .number = n}
#define SIGNED(n) {.value_type = LINKINFO_VALUE_SIGNED, .signed_number = n}
#define TRUTH(b) {.value_type = LINKINFO_VALUE_TRUTH, .truth = b}
#define PRESENT {.value_type = LINKINFO_VALUE_PRESENT, .truth = true}
#define TEXT(n) {.value_type = LINKINFO_VALUE_TEXT, .length = n}
#define IPV4(...) {.value_type = LINKINFO_VALUE_IPV4, .length = 4, .octets = {__VA_ARGS__}}
#define IPV6(...) {.value_type = LINKINFO_VALUE_IPV6, .length = 16, .octets = {__VA_ARGS__}}
#define MAC(...) {.value_type = LINKINFO_VALUE_MAC, .length = 6, .octets = {__VA_ARGS__}}
#define PAIR(a, b) {.value_type = LINKINFO_VALUE_PAIR, .first = a, .second = b}
#define LIST(n, kind) {.value_type = LINKINFO_VALUE_LIST, .length = n, .list_kind = kind}
#define BYTES(n) {.value_type = LINKINFO_VALUE_BYTES, .length = n}

static const struct {
  uint16_t kind;
  uint8_t bytes[52];
  struct linkinfo_value value;
} rows[] = {
    /* IFLA_VXLAN_TTL 64, IFLA_VXLAN_ID 42, IFLA_MACSEC_SCI 1 */
    {LINKINFO_KIND_VXLAN, {5, 0, 5, 0, 64}, NUMBER(64)},
    {LINKINFO_KIND_VXLAN, {8, 0, 1, 0, 42}, NUMBER(42)},
    {LINKINFO_KIND_MACSEC, {12, 0, 1, 0, 1}, NUMBER(1)},
    /* IFLA_GRE_ENCAP_TYPE 2 */
    {LINKINFO_KIND_GRE, {6, 0, 14, 0, 2}, NUMBER(2)},
    /* IFLA_VXLAN_PORT 4789, IFLA_VXLAN_LABEL 5, IFLA_VXLAN_RESERVED_BITS 258 */
    {LINKINFO_KIND_VXLAN, {6, 0, 15, 0, 0x12, 0xb5}, NUMBER(4789)},
    {LINKINFO_KIND_VXLAN, {8, 0, 26, 0, 0, 0, 0, 5}, NUMBER(5)},
    {LINKINFO_KIND_VXLAN, {12, 0, 33, 0, 0, 0, 0, 0, 0, 0, 1, 2}, NUMBER(258)},
    /* IFLA_MACVLAN_BC_CUTOFF */
    {LINKINFO_KIND_MACVLAN, {8, 0, 9, 0, 1}, SIGNED(1)},
    {LINKINFO_KIND_MACVLAN, {8, 0, 9, 0, 255, 255, 255, 255}, SIGNED(-1)},
    {LINKINFO_KIND_MACVLAN, {8, 0, 9, 0, 0, 0, 0, 128}, SIGNED(INT32_MIN)},
    {LINKINFO_KIND_MACVLAN, {8, 0, 9, 0, 255, 255, 255, 127}, SIGNED(INT32_MAX)},
    /* IFLA_VXLAN_LEARNING: true where the byte is not 0 */
    {LINKINFO_KIND_VXLAN, {5, 0, 7, 0, 0}, TRUTH(false)},
    {LINKINFO_KIND_VXLAN, {5, 0, 7, 0, 1}, TRUTH(true)},
    {LINKINFO_KIND_VXLAN, {5, 0, 7, 0, 2}, TRUTH(true)},
    /* IFLA_GRE_PMTUDISC: true where the byte is 1 */
    {LINKINFO_KIND_GRE, {5, 0, 10, 0, 0}, TRUTH(false)},
    {LINKINFO_KIND_GRE, {5, 0, 10, 0, 1}, TRUTH(true)},
    {LINKINFO_KIND_GRE, {5, 0, 10, 0, 2}, TRUTH(false)},
    /* IFLA_NETKIT_SCRUB: false for none, true for the default */
    {LINKINFO_KIND_NETKIT, {8, 0, 6, 0, 0}, TRUTH(false)},
    {LINKINFO_KIND_NETKIT, {8, 0, 6, 0, 1}, TRUTH(true)},
    {LINKINFO_KIND_NETKIT, {8, 0, 6, 0, 0, 1}, TRUTH(true)},
    /* IFLA_VXLAN_GBP, whose bytes are ignored; IFLA_VXLAN_TTL_INHERIT */
    {LINKINFO_KIND_VXLAN, {4, 0, 23, 0}, PRESENT},
    {LINKINFO_KIND_VXLAN, {5, 0, 23, 0, 0}, PRESENT},
    {LINKINFO_KIND_VXLAN, {4, 0, 28, 0}, PRESENT},
    {LINKINFO_KIND_VXLAN, {5, 0, 28, 0, 1}, NUMBER(1)},
    /* IFLA_BATADV_ALGO_NAME "AB" without a NUL, with one and with two; empty */
    {LINKINFO_KIND_BATADV, {6, 0, 1, 0, 'A', 'B'}, TEXT(2)},
    {LINKINFO_KIND_BATADV, {7, 0, 1, 0, 'A', 'B', 0}, TEXT(2)},
    {LINKINFO_KIND_BATADV, {8, 0, 1, 0, 'A', 'B', 0, 0}, TEXT(3)},
    {LINKINFO_KIND_BATADV, {4, 0, 1, 0}, TEXT(0)},
    /* IFLA_VXLAN_GROUP, IFLA_GENEVE_REMOTE, IFLA_VTI_REMOTE: 10.0.0.9 */
    {LINKINFO_KIND_VXLAN, {8, 0, 2, 0, 10, 0, 0, 9}, IPV4(10, 0, 0, 9)},
    {LINKINFO_KIND_GENEVE, {8, 0, 2, 0, 10, 0, 0, 9}, IPV4(10, 0, 0, 9)},
    {LINKINFO_KIND_VTI, {8, 0, 5, 0, 10, 0, 0, 9}, IPV4(10, 0, 0, 9)},
    /* IFLA_VXLAN_LOCAL6, IFLA_GENEVE_REMOTE6, IFLA_VTI_REMOTE: 2001:db8::1 */
    {LINKINFO_KIND_VXLAN, {20, 0, 17, 0, 32, 1, 13, 184, [19] = 1}, IPV6(32, 1, 13, 184, [15] = 1)},
    {LINKINFO_KIND_GENEVE, {20, 0, 7, 0, 32, 1, 13, 184, [19] = 1}, IPV6(32, 1, 13, 184, [15] = 1)},
    {LINKINFO_KIND_VTI6, {20, 0, 5, 0, 32, 1, 13, 184, [19] = 1}, IPV6(32, 1, 13, 184, [15] = 1)},
    /* IFLA_MACVLAN_MACADDR 02:00:00:00:00:01 */
    {LINKINFO_KIND_MACVLAN, {10, 0, 4, 0, 2, 0, 0, 0, 0, 1}, MAC(2, 0, 0, 0, 0, 1)},
    /* IFLA_VXLAN_PORT_RANGE 1000 to 2000; IFLA_RMNET_FLAGS 1, of the mask 3 */
    {LINKINFO_KIND_VXLAN, {8, 0, 10, 0, 3, 232, 7, 208}, PAIR(1000, 2000)},
    {LINKINFO_KIND_RMNET, {12, 0, 2, 0, 1, 0, 0, 0, 3}, PAIR(1, 3)},
    /* IFLA_MACVLAN_MACADDR_DATA with one attribute, and with no header; VETH_INFO_PEER */
    {LINKINFO_KIND_MACVLAN, {8, 0, 5, 0, 4, 0, 4}, LIST(4, 0)},
    {LINKINFO_KIND_MACVLAN, {5, 0, 5, 0, 9}, LIST(1, 0)},
    {LINKINFO_KIND_VETH, {6, 0, 1, 0, 1, 2}, BYTES(2)},
    /* a VNI of three bytes, a name that is not UTF-8, an address of the other version */
    {LINKINFO_KIND_VXLAN, {7, 0, 1, 0, 42}, NONE},
    {LINKINFO_KIND_BATADV, {5, 0, 1, 0, 255}, NONE},
    {LINKINFO_KIND_GENEVE, {20, 0, 2, 0}, NONE},
    /* IFLA_VLAN_ID 5, of two bytes and of one; IFLA_VLAN_FLAGS 1, of the mask 3; IFLA_VLAN_PROTOCOL
     * 0x88a8 */
    {LINKINFO_KIND_VLAN, {6, 0, 1, 0, 5}, NUMBER(5)},
    {LINKINFO_KIND_VLAN, {5, 0, 1, 0, 5}, NONE},
    {LINKINFO_KIND_VLAN, {12, 0, 2, 0, 1, 0, 0, 0, 3}, PAIR(1, 3)},
    {LINKINFO_KIND_VLAN, {6, 0, 5, 0, 0x88, 0xa8}, NUMBER(0x88a8)},
    /* IFLA_VLAN_EGRESS_QOS without a mapping, IFLA_VLAN_INGRESS_QOS with no header in it; in the
     * list IFLA_VLAN_QOS_MAPPING from 2 to 3 */
    {LINKINFO_KIND_VLAN, {4, 0, 3, 0}, LIST(0, LINKINFO_LIST_KIND_VLANQOSMAPPING)},
    {LINKINFO_KIND_VLAN, {5, 0, 4, 0, 1}, LIST(1, LINKINFO_LIST_KIND_VLANQOSMAPPING)},
    {LINKINFO_LIST_KIND_VLANQOSMAPPING, {12, 0, 1, 0, 2, 0, 0, 0, 3}, PAIR(2, 3)},
    /* IFLA_BOND_MIIMON 100, IFLA_BOND_AD_ACTOR_SYSTEM 02:00:00:00:00:01 */
    {LINKINFO_KIND_BOND, {8, 0, 3, 0, 100}, NUMBER(100)},
    {LINKINFO_KIND_BOND, {10, 0, 26, 0, 2, 0, 0, 0, 0, 1}, MAC(2, 0, 0, 0, 0, 1)},
    /* IFLA_BOND_ARP_IP_TARGET, IFLA_BOND_NS_IP6_TARGET, and their elements of the types 1 and 0 */
    {LINKINFO_KIND_BOND, {12, 0, 8, 0, 8}, LIST(8, LINKINFO_LIST_KIND_V4)},
    {LINKINFO_KIND_BOND, {4, 0, 31, 0}, LIST(0, LINKINFO_LIST_KIND_V6)},
    {LINKINFO_LIST_KIND_V4, {8, 0, 1, 0, 10, 0, 0, 9}, IPV4(10, 0, 0, 9)},
    {LINKINFO_LIST_KIND_V4, {9, 0, 1, 0, 10, 0, 0, 9}, NONE},
    {LINKINFO_LIST_KIND_V6, {20, 0, 0, 0, 253, [19] = 1}, IPV6(253, [15] = 1)},
    /* IFLA_BOND_AD_INFO, and in it IFLA_BOND_AD_INFO_NUM_PORTS 2 and .._PARTNER_MAC */
    {LINKINFO_KIND_BOND, {8, 0, 23, 0, 4, 0, 2}, LIST(4, LINKINFO_LIST_KIND_BONDADINFO)},
    {LINKINFO_LIST_KIND_BONDADINFO, {6, 0, 2, 0, 2}, NUMBER(2)},
    {LINKINFO_LIST_KIND_BONDADINFO, {10, 0, 5, 0, 2, 0, 0, 0, 0, 1}, MAC(2, 0, 0, 0, 0, 1)},
    /* IFLA_BR_STP_STATE 1, IFLA_BR_VLAN_FILTERING, true where the byte is not 0; IFLA_BR_BRIDGE_ID
     * of eight bytes and of seven */
    {LINKINFO_KIND_BRIDGE, {8, 0, 5, 0, 1}, NUMBER(1)},
    {LINKINFO_KIND_BRIDGE, {5, 0, 7, 0, 255}, TRUTH(true)},
    {LINKINFO_KIND_BRIDGE, {12, 0, 11, 0, 0x80}, BYTES(8)},
    {LINKINFO_KIND_BRIDGE, {11, 0, 11, 0, 0x80}, NONE},
    /* IFLA_BR_MCAST_QUERIER_STATE, and in it BRIDGE_QUERIER_IP_ADDRESS */
    {LINKINFO_KIND_BRIDGE, {4, 0, 47, 0}, LIST(0, LINKINFO_LIST_KIND_BRIDGEQUERIERSTATE)},
    {LINKINFO_LIST_KIND_BRIDGEQUERIERSTATE, {8, 0, 1, 0, 10, 0, 0, 9}, IPV4(10, 0, 0, 9)},
    /* of ports: IFLA_BOND_SLAVE_PERM_HWADDR, IFLA_BOND_SLAVE_QUEUE_ID 5, IFLA_BRPORT_COST 100 */
    {LINKINFO_PORT_KIND_BOND, {10, 0, 4, 0, 2, 0, 0, 0, 0, 1}, BYTES(6)},
    {LINKINFO_PORT_KIND_BOND, {6, 0, 5, 0, 5}, NUMBER(5)},
    {LINKINFO_PORT_KIND_BRIDGE, {8, 0, 3, 0, 100}, NUMBER(100)},
    /* IFLA_CAN_BITTIMING, IFLA_CAN_BITTIMING_CONST, IFLA_CAN_BERR_COUNTER, also of other lengths */
    {LINKINFO_KIND_CAN, {36, 0, 1, 0}, BYTES(32)},
    {LINKINFO_KIND_CAN, {35, 0, 1, 0}, NONE},
    {LINKINFO_KIND_CAN, {52, 0, 2, 0}, BYTES(48)},
    {LINKINFO_KIND_CAN, {36, 0, 2, 0}, NONE},
    /* IFLA_CAN_CTRLMODE: the mask, then the flags */
    {LINKINFO_KIND_CAN, {12, 0, 5, 0, 3, 0, 0, 0, 0x20}, PAIR(3, 0x20)},
    {LINKINFO_KIND_CAN, {8, 0, 8, 0, 1, 0, 2}, BYTES(4)},
    {LINKINFO_KIND_CAN, {6, 0, 8, 0, 1}, NONE},
    /* IFLA_CAN_TERMINATION_CONST, IFLA_CAN_BITRATE_CONST: any number of numbers */
    {LINKINFO_KIND_CAN, {8, 0, 12, 0, 120}, BYTES(4)},
    {LINKINFO_KIND_CAN, {7, 0, 12, 0, 120}, NONE},
    {LINKINFO_KIND_CAN, {4, 0, 13, 0}, BYTES(0)},
    {LINKINFO_KIND_CAN, {6, 0, 13, 0, 1}, NONE},
    /* IFLA_CAN_TDC, IFLA_CAN_CTRLMODE_EXT, IFLA_CAN_XL_TDC, IFLA_CAN_XL_PWM; in them
     * IFLA_CAN_TDC_TDCO 7, IFLA_CAN_CTRLMODE_SUPPORTED 3, IFLA_CAN_PWM_PWMS 9 */
    {LINKINFO_KIND_CAN, {4, 0, 16, 0}, LIST(0, LINKINFO_LIST_KIND_CANTDC)},
    {LINKINFO_KIND_CAN, {4, 0, 17, 0}, LIST(0, LINKINFO_LIST_KIND_CANCTRLMODEEXT)},
    {LINKINFO_KIND_CAN, {4, 0, 21, 0}, LIST(0, LINKINFO_LIST_KIND_CANTDC)},
    {LINKINFO_KIND_CAN, {4, 0, 22, 0}, LIST(0, LINKINFO_LIST_KIND_CANPWM)},
    {LINKINFO_LIST_KIND_CANTDC, {8, 0, 8, 0, 7}, NUMBER(7)},
    {LINKINFO_LIST_KIND_CANCTRLMODEEXT, {8, 0, 1, 0, 3}, NUMBER(3)},
    {LINKINFO_LIST_KIND_CANPWM, {8, 0, 7, 0, 9}, NUMBER(9)},
    /* IFLA_HSR_PROTOCOL 1, IFLA_DSA_CONDUIT 2, IFLA_TUN_TYPE 1 */
    {LINKINFO_KIND_HSR, {5, 0, 7, 0, 1}, NUMBER(1)},
    {LINKINFO_KIND_DSA, {8, 0, 1, 0, 2}, NUMBER(2)},
    {LINKINFO_KIND_TUN, {5, 0, 3, 0, 1}, NUMBER(1)},
    /* a type without a shape; data whose attributes have no known shape */
    {LINKINFO_KIND_VXLAN, {8, 0, 99, 0, 42}, NONE},
    {LINKINFO_KIND_WIREGUARD, {6, 0, 1, 0, 5}, NONE},
};

static int is_worked(size_t row) {
  size_t length = rows[row].bytes[0];
  struct linkinfo_valued_attribute attribute;
  memset(&attribute, 0xa5, sizeof attribute);
  struct linkinfo_list_result found =
      linkinfo_values(rows[row].bytes, length, rows[row].kind, &attribute, 1);
  return found.count == 1 && found.place == length && found.error.cause == 0 &&
         attribute.place == 0 && attribute.length == length - 4 &&
         attribute.raw_type == rows[row].bytes[2] &&
         equal_values(&attribute.value, &rows[row].value);
}

int main(void) {
  int status = 0;
  for (size_t row = 0; row < sizeof rows / sizeof *rows; row++) {
    if (is_worked(row)) continue;
    fprintf(stderr, "values.c: row %zu, of kind %u and type %u\n", row, (unsigned)rows[row].kind,
            (unsigned)rows[row].bytes[2]);
    status = 1;
  }
  printf("values: %zu worked attributes\n", sizeof rows / sizeof *rows);
  return status;
}
