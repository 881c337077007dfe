/* The passes that LLVM gets, for one of its major versions. plugin.c loads this into a Clang that has that version.

   Called: by plugin.c and LLVM, in the compiler's one thread; no lock. */
#include <llvm/Config/llvm-config.h>
#include <llvm/Passes/PassBuilder.h>
#include <llvm/Support/CommandLine.h>

#include "clang/checks.hpp"
#include "clang/plugin.h"

#include <memory>

using namespace llvm;

namespace
{

/* Whether AddressSanitizer's pass comes before loops are vectorized, and not last. */
bool checks_come_early()
{
    auto found = cl::getRegisteredOptions().find("sanitizer-early-opt-ep");
    return found != cl::getRegisteredOptions().end() && static_cast<cl::opt<bool> *>(found->second)->getValue();
}

/* Clang tells LLVM of AddressSanitizer's pass after it has loaded its plugins, and so before the start of the passes.
   A pass that is added there, once, comes behind it. */
void add_checks(PassBuilder &builder)
{
    bool is_early = checks_come_early();
    auto is_added = std::make_shared<bool>(false);
    builder.registerPipelineStartEPCallback([&builder, is_added, is_early](ModulePassManager &, auto...) {
        auto add = [](ModulePassManager &passes, auto...) { passes.addPass(cheaper_checks()); };
        if (*is_added)
            return;
        *is_added = true;
#if LLVM_VERSION_MAJOR >= 15
        if (is_early)
            builder.registerOptimizerEarlyEPCallback(add);
#endif
        if (!is_early)
            builder.registerOptimizerLastEPCallback(add);
    });
}
} // namespace

extern "C" void asancol_add_passes(void *builder)
{
    add_checks(*static_cast<PassBuilder *>(builder));
}
