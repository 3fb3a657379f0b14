/* Nothing of QEMU's file of this name is used by name. */
