//go:build !cgo

package yurewha

// Without cgo there are no calls of the library, so the compiler stops here and says what is missing.
var _ = the_package_yurewha_needs_cgo_set_CGO_ENABLED_to_1_and_install_a_C_compiler
