/* Makes the checks of AddressSanitizer's pass cheaper. Each stays where it is, with its own report.

   Called: by passes.cpp, in the compiler's one thread, without a lock. */
#ifndef ASANCOL_CLANG_CHECKS_HPP
#define ASANCOL_CLANG_CHECKS_HPP

#include <llvm/IR/PassManager.h>

/* For a module whose checks are there. In one for another processor than x86-64, and in functions that are not
   optimised, it changes nothing. */
struct cheaper_checks : llvm::PassInfoMixin<cheaper_checks> {
    llvm::PreservedAnalyses run(llvm::Module &module, llvm::ModuleAnalysisManager &manager);
};

#endif
