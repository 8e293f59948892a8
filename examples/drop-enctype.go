// Takes the keys of an encryption type out of a keytab, which krbfile(1) holds meanwhile and saves. It takes cgo and
// libkrbfile: go run drop-enctype.go FILE NUMBER
package main

// #cgo LDFLAGS: -lkrbfile
// #include <krbfile_files.h>
// #include <stdlib.h>
import "C"

import (
	"fmt"
	"os"
	"strconv"
	"unsafe"
)

func drop(file string, enctype C.uint32_t) C.uint32_t {
	var edit *C.krbf_edit
	var image C.krbf_bytes
	var keytab C.krbf_keytab
	var entry C.krbf_entry
	name := C.CString(file)
	defer C.free(unsafe.Pointer(name))
	defer C.krbf_kt_close(&keytab)
	status := C.krbf_edit_begin(name, C.KRBF_EDIT_KEYTAB, &edit, &image)
	if status == C.KRBF_DONE {
		status = C.krbf_kt_open(image.at, image.len, 0, 0, &keytab)
	}
	for cursor := C.uint32_t(C.KRBF_FIRST); status == C.KRBF_DONE; {
		status = C.krbf_kt_next(&keytab, &cursor, &entry)
		if status == C.KRBF_DONE && entry.enctype == enctype {
			C.krbf_kt_remove_at(&keytab, entry.place)
		}
	}
	if status != C.KRBF_END {
		C.krbf_edit_leave(edit)
		return status
	}
	C.krbf_kt_image(&keytab, &image)
	return C.krbf_edit_save(edit, image)
}

func main() {
	enctype, err := strconv.ParseUint(os.Args[len(os.Args)-1], 10, 16)
	if len(os.Args) != 3 || err != nil {
		os.Exit(2)
	}
	if status := drop(os.Args[1], C.uint32_t(enctype)); status != C.KRBF_DONE {
		fmt.Fprintln(os.Stderr, "drop-enctype: status", status)
		os.Exit(1)
	}
}
