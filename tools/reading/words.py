"""The words of the profile (LangRef 3.7, Instruction Reference, Linkage Types, Parameter Attributes, Function Attributes)."""

WRAPPING, EXACT = ("nuw", "nsw"), ("exact",)
FLAGS = {**dict.fromkeys(("add", "sub", "mul", "shl"), WRAPPING), **dict.fromkeys(("udiv", "sdiv", "lshr", "ashr"), EXACT),
         **dict.fromkeys(("urem", "srem", "and", "or", "xor"), ())}
PREDICATES = ("eq", "ne", "ugt", "uge", "ult", "ule", "sgt", "sge", "slt", "sle")
CONVERSIONS = ("zext", "sext", "trunc", "bitcast")
LINKAGES = ("private", "internal", "common", "available_externally", "linkonce_odr", "weak_odr")
EXTENSIONS = ("signext", "zeroext")
OF_PARAMETERS = (*EXTENSIONS, "noalias", "nocapture", "readonly", "readnone", "nonnull", "returned")
OF_FUNCTIONS = ("alwaysinline", "argmemonly", "builtin", "cold", "convergent", "inlinehint", "jumptable", "minsize", "naked", "nobuiltin",
                "noduplicate", "noimplicitfloat", "noinline", "nonlazybind", "noredzone", "noreturn", "nounwind", "optnone", "optsize",
                "readnone", "readonly", "returns_twice", "safestack", "sanitize_address", "sanitize_memory", "sanitize_thread", "ssp",
                "sspreq", "sspstrong", "uwtable")

# LLVM's words that the profile leaves out: where one isn't expected, the fault says so
LEFT_OUT = frozenset("""
half float double fp128 x86_fp80 ppc_fp128 x86_mmx < fadd fsub fmul fdiv frem fcmp fptrunc fpext fptoui fptosi uitofp sitofp ptrtoint inttoptr
addrspacecast addrspace extractvalue insertvalue extractelement insertelement shufflevector va_arg invoke landingpad resume indirectbr
blockaddress fence cmpxchg atomicrmw atomic volatile inalloca byval sret nest inreg musttail fastcc coldcc cc asm module alias thread_local
comdat section gc prefix prologue personality weak linkonce extern_weak appending hidden protected dllimport dllexport
externally_initialized metadata uselistorder uselistorder_bb
""".split())
