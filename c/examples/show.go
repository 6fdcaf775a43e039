// show HEX [WANTED]: the attributes in the contents of IFLA_LINKINFO, and the first one of a
// request that they do not meet. Status 0 where they meet it, or nothing is wanted.
//
// (linkinfo_same is for two requests, or two canonical encodings: it is false for a request and
// the link that the kernel made for it, to which it adds attributes.)
package main

// #cgo pkg-config: linkinfo
// #include <linkinfo.h>
// #include <linux/if_link.h>
// #include <linux/netlink.h>
import "C"

import (
	"encoding/hex"
	"fmt"
	"os"
	"unsafe"
)

// typeMask is NLA_TYPE_MASK for a type of 16 bits.
const typeMask = 0xffff & C.NLA_TYPE_MASK

// pointer is that of the first byte; C takes null where there is none.
func pointer(bytes []byte) *C.uint8_t {
	if len(bytes) == 0 {
		return nil
	}
	return (*C.uint8_t)(unsafe.Pointer(&bytes[0]))
}

func text(write func(buffer *C.char, length C.size_t) C.size_t) string {
	var buffer [37]C.char
	write(&buffer[0], C.size_t(len(buffer)))
	return C.GoString(&buffer[0])
}

func items(list []byte) []C.struct_linkinfo_item {
	items := make([]C.struct_linkinfo_item, len(list)/4+1)
	found := C.linkinfo_items(pointer(list), C.size_t(len(list)), &items[0], C.size_t(len(items)))
	return items[:found.count]
}

// kind is that of the link, or of the port, whose data or statistics the item is.
func kind(item C.struct_linkinfo_item) string {
	name := ""
	switch item.raw_type & typeMask {
	case C.IFLA_INFO_DATA, C.IFLA_INFO_XSTATS:
		name = text(func(buffer *C.char, length C.size_t) C.size_t {
			return C.linkinfo_kind_name(item.kind, buffer, length)
		})
	case C.IFLA_INFO_SLAVE_DATA:
		name = text(func(buffer *C.char, length C.size_t) C.size_t {
			return C.linkinfo_port_kind_name(item.port_kind, buffer, length)
		})
	}
	if name == "" {
		return ""
	}
	return " of " + name
}

// attributes are those in data of a kind, or in a nested list.
func attributes(payload []byte, kind C.uint16_t) []C.struct_linkinfo_valued_attribute {
	values := make([]C.struct_linkinfo_valued_attribute, len(payload)/4+1)
	found := C.linkinfo_values(pointer(payload), C.size_t(len(payload)), kind, &values[0],
		C.size_t(len(values)))
	return values[:found.count]
}

// dataKind is the kind of data, or the port kind of port data.
func dataKind(item C.struct_linkinfo_item) C.uint16_t {
	switch item.raw_type & typeMask {
	case C.IFLA_INFO_DATA:
		return item.kind
	case C.IFLA_INFO_SLAVE_DATA:
		return item.port_kind
	}
	return 0
}

// valueText is a value as the shape of its attribute means it.
func valueText(attribute C.struct_linkinfo_valued_attribute, payload []byte) string {
	value := attribute.value
	switch value.value_type {
	case C.LINKINFO_VALUE_NUMBER:
		return fmt.Sprintf(" = %d", value.number)
	case C.LINKINFO_VALUE_SIGNED:
		return fmt.Sprintf(" = %d", value.signed_number)
	case C.LINKINFO_VALUE_TRUTH, C.LINKINFO_VALUE_PRESENT:
		return fmt.Sprintf(" = %t", value.truth)
	case C.LINKINFO_VALUE_TEXT:
		return fmt.Sprintf(" = \"%s\"", payload[:value.length])
	case C.LINKINFO_VALUE_IPV4, C.LINKINFO_VALUE_IPV6, C.LINKINFO_VALUE_MAC:
		text := " ="
		for _, octet := range value.octets[:value.length] {
			text += fmt.Sprintf(" %02x", octet)
		}
		return text
	case C.LINKINFO_VALUE_PAIR:
		return fmt.Sprintf(" = %d, %d", value.first, value.second)
	}
	return fmt.Sprintf(", %d bytes", attribute.length)
}

// isRejected prints the error of a list, where it has one.
func isRejected(whose string, list []byte) bool {
	result := C.linkinfo_check_at(pointer(list), C.size_t(len(list)))
	if result.error.cause == C.LINKINFO_CAUSE_NONE {
		return false
	}
	message := text(func(buffer *C.char, length C.size_t) C.size_t {
		return C.linkinfo_error_text(result.error, buffer, length)
	})
	fmt.Printf("%s%s at byte %d\n", whose, message, result.place)
	return true
}

// showAttributes prints the attributes in data of a kind, or in a nested list, and in the lists in
// them. The payload is at the offset begin of the whole list.
func showAttributes(payload []byte, kind C.uint16_t, begin C.size_t, indent string) {
	for _, attribute := range attributes(payload, kind) {
		place := attribute.place + C.NLA_HDRLEN
		inside := payload[place:][:attribute.length]
		fmt.Printf("%s%d: type %d%s\n", indent, begin+attribute.place,
			attribute.raw_type&typeMask, valueText(attribute, inside))
		if attribute.value.value_type == C.LINKINFO_VALUE_LIST {
			listKind := attribute.value.list_kind
			if listKind == C.LINKINFO_LIST_KIND_NONE {
				listKind = kind
			}
			showAttributes(inside, listKind, begin+place, indent+"  ")
		}
	}
}

func show(list []byte) {
	for _, item := range items(list) {
		fmt.Printf("%d: type %d, %d bytes%s\n", item.place, item.raw_type&typeMask, item.length,
			kind(item))
		begin := item.place + C.NLA_HDRLEN
		showAttributes(list[begin:begin+item.length], dataKind(item), begin, "  ")
	}
}

// isAsWanted says whether the link has all that is wanted, and prints the first attribute that it
// has not.
func isAsWanted(have, want []byte) bool {
	unmet := C.linkinfo_first_unmet(pointer(have), C.size_t(len(have)), pointer(want),
		C.size_t(len(want)))
	if unmet.met {
		fmt.Println("as wanted")
		return true
	}
	family := text(func(buffer *C.char, length C.size_t) C.size_t {
		return C.linkinfo_family_name(unmet.family, buffer, length)
	})
	found := "and none"
	if unmet.is_present {
		found = fmt.Sprintf("and another one at byte %d", unmet.have)
	}
	// (`type` is a word of Go, so cgo names the member _type)
	fmt.Printf("not as wanted: %s %d at byte %d of what is wanted, %s\n", family, unmet._type,
		unmet.want, found)
	return false
}

func main() {
	var lists [][]byte
	for _, argument := range os.Args[1:] {
		if list, err := hex.DecodeString(argument); err == nil {
			lists = append(lists, list)
		}
	}
	if len(os.Args) != len(lists)+1 || len(lists) != 1 && len(lists) != 2 {
		fmt.Fprintln(os.Stderr, "usage: show HEX [WANTED]")
		os.Exit(2)
	}
	if isRejected("", lists[0]) || len(lists) == 2 && isRejected("wanted: ", lists[1]) {
		os.Exit(1)
	}
	show(lists[0])
	if len(lists) == 2 && !isAsWanted(lists[0], lists[1]) {
		os.Exit(1)
	}
}
