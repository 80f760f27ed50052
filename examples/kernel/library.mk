# The library, as it is made for kernels, as an object of a module. On x86-64 the kernel's objtool goes over it as over C: it writes how to unwind, and
# where the returns are that the kernel patches.
quiet_cmd_library = UNPACK  $@
      cmd_library = $(AR) p $< > $@; $(OBJCOPY) -R .stack_sizes -R .llvm_addrsig -R .note.gnu.property $@ $(cmd_objtool)
$(obj)/library.o: $(src)/libvc4check_c.a FORCE
	$(call if_changed,library)
targets += library.o
