/* What has another name, or another type, from one version of LLVM to the next.

   Called: by checks.cpp, in the compiler's one thread, without a lock. */
#ifndef ASANCOL_CLANG_LLVM_HPP
#define ASANCOL_CLANG_LLVM_HPP

#include <llvm/ADT/MapVector.h>
#if __has_include(<llvm/TargetParser/Triple.h>)
#include <llvm/TargetParser/Triple.h>
#else
#include <llvm/ADT/Triple.h>
#endif
#include <llvm/IR/Instructions.h>
#include <llvm/IR/Module.h>

inline bool begins_with(llvm::StringRef text, llvm::StringRef front)
{
    return text.substr(0, front.size()) == front;
}

inline bool is_for_x86_64(const llvm::Module &module)
{
    return llvm::Triple(module.getTargetTriple()).getArch() == llvm::Triple::x86_64;
}

/* What an address is an offset to, as collectOffset fills it in. */
template <typename type>
type collected(bool (llvm::GetElementPtrInst::*)(const llvm::DataLayout &, unsigned, type &, llvm::APInt &) const);
using collected_offsets = decltype(collected(&llvm::GetElementPtrInst::collectOffset));

#endif
