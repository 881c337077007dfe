/* A check looks at the shadow of an address, and calls a report if that says that the access is bad:

       shadow = load byte (address >> 3) + offset
       if (shadow != 0)                                the slow path; an access of 8 or 16 bytes reports at once
           if ((address & 7) + size - 1 >= shadow)
               report(address)

   - The slow path loads the shadow again, so that the first test is one instruction. An access is still left out only
     if one of the two looks, both at its place, finds it good.
   - The report keeps all registers, so that a function keeps in them what it has.
   - Where an address differs from one checked before by a multiple of 8, its shadow does by an eighth of that. This is
     exact unless the sum leaves the range of addresses. It does not: the one before was checked and accessed, and so it
     is no wild one. A base alone may be, such as MAP_FAILED, and may be accessed 8 bytes further.

   What does not look like a check stays as it is. */
#include "clang/checks.hpp"

#include <llvm/ADT/DepthFirstIterator.h>
#include <llvm/ADT/STLExtras.h>
#include <llvm/IR/Dominators.h>
#include <llvm/IR/IRBuilder.h>
#include <llvm/IR/Module.h>
#include <llvm/IR/Operator.h>
#include <llvm/IR/PatternMatch.h>
#include <llvm/Transforms/Utils/Local.h>

#include <cstring>
#include <map>
#include <vector>

#include "clang/llvm.hpp"

using namespace llvm;
using namespace llvm::PatternMatch;

namespace
{

const char REPORT_FRONT[] = "__asan_report_exp_", REPORT_END[] = "_noabort", OWN_FRONT[] = "asancol_report_";

/* The greatest difference of two shadow bytes that one instruction reaches, with room. */
const int64_t FARTHEST = 1 << 12;

bool is_report(const Function &function)
{
    return function.isDeclaration() && begins_with(function.getName(), REPORT_FRONT);
}

/* The address that a block reports before all else; or null. */
Value *reported_by(BasicBlock *block)
{
    auto *call = dyn_cast<CallInst>(&*block->getFirstNonPHIOrDbg());
    Function *function = call != nullptr ? call->getCalledFunction() : nullptr;
    return function != nullptr && is_report(*function) ? call->getArgOperand(0) : nullptr;
}

struct check {
    LoadInst *shadow;
    Value *address;
    Instruction *shift;
    uint64_t offset;
    ICmpInst *partial; /* the test of the slow path; or null */
};

/* Where the branch goes if the one test of its block is true, which only comes from there; or null. */
BasicBlock *next_of(BasicBlock *block, Value *test)
{
    auto *branch = dyn_cast<BranchInst>(block->getTerminator());
    if (branch == nullptr || !branch->isConditional() || branch->getCondition() != test || !test->hasOneUse())
        return nullptr;
    BasicBlock *next = branch->getSuccessor(0);
    return next != branch->getSuccessor(1) && next->getSinglePredecessor() == block ? next : nullptr;
}

/* The test that a block ends with, if it uses the shadow; or null. */
ICmpInst *test_in(BasicBlock *block, LoadInst *shadow, CmpInst::Predicate predicate)
{
    for (User *user : shadow->users()) {
        auto *test = dyn_cast<ICmpInst>(user);
        if (test != nullptr && test->getParent() == block && test->getPredicate() == predicate)
            return test;
    }
    return nullptr;
}

/* Whether the load is that of a check. */
bool read(LoadInst *load, check &it)
{
    auto *pointer = dyn_cast<IntToPtrInst>(load->getPointerOperand());
    Value *shift;
    if (pointer == nullptr || !load->isSimple()
        || !match(pointer->getOperand(0), m_Add(m_Value(shift), m_ConstantInt(it.offset)))
        || !match(shift, m_LShr(m_Value(it.address), m_SpecificInt(3))) || !it.address->getType()->isIntegerTy(64))
        return false;
    it.shadow = load;
    it.shift = dyn_cast<Instruction>(shift);
    BasicBlock *block = load->getParent();
    ICmpInst *first = test_in(block, load, CmpInst::ICMP_NE);
    if (it.shift == nullptr || first == nullptr || !match(first->getOperand(1), m_Zero()))
        return false;
    BasicBlock *slow = next_of(block, first);
    if (slow == nullptr)
        return false;
    it.partial = test_in(slow, load, CmpInst::ICMP_SGE);
    BasicBlock *bad = it.partial != nullptr ? next_of(slow, it.partial) : slow;
    return bad != nullptr && reported_by(bad) == it.address && load->hasNUses(it.partial != nullptr ? 2 : 1);
}

void load_again(const check &it)
{
    if (it.partial == nullptr)
        return;
    BasicBlock *slow = it.partial->getParent();
    IRBuilder<> builder(slow, slow->getFirstInsertionPt());
    builder.SetCurrentDebugLocation(it.shadow->getDebugLoc());
    LoadInst *again = builder.CreateAlignedLoad(it.shadow->getType(), it.shadow->getPointerOperand(),
                                                it.shadow->getAlign(), true);
    it.partial->replaceUsesOfWith(it.shadow, again);
}

/* An address, as a constant and what it is added to: values, and the factor of each. All is modulo 2^64. */
struct place {
    std::vector<std::pair<Value *, int64_t>> of;
    int64_t offset = 0;
};

/* Adds a number of 64 bits and its factor. A sum of a constant is apart, since it wraps as an address does. */
void add_number(place &at, std::map<Value *, uint64_t> &numbers, Value *number, uint64_t factor)
{
    Value *other;
    ConstantInt *more;
    while (number->getType()->isIntegerTy(64) && match(number, m_Add(m_Value(other), m_ConstantInt(more)))) {
        at.offset += static_cast<int64_t>(more->getZExtValue() * factor);
        number = other;
    }
    numbers[number] += factor;
}

/* What a pointer is an offset to, and the offset; or null, if it is none. */
Value *step(const DataLayout &layout, Value *pointer, place &at, std::map<Value *, uint64_t> &numbers)
{
    Value *inner;
    ConstantInt *more;
    if (auto *cast = dyn_cast<BitCastInst>(pointer))
        return cast->getOperand(0);
    /* The last byte of an access that may be unaligned. */
    if (match(pointer, m_IntToPtr(m_Add(m_PtrToInt(m_Value(inner)), m_ConstantInt(more))))) {
        at.offset += static_cast<int64_t>(more->getZExtValue());
        return inner;
    }
    auto *element = dyn_cast<GetElementPtrInst>(pointer);
    collected_offsets offsets;
    APInt constant(64, 0);
    if (element == nullptr || element->getType()->isVectorTy()
        || !element->collectOffset(layout, 64, offsets, constant))
        return nullptr;
    at.offset += constant.getSExtValue();
    for (const auto &one : offsets)
        add_number(at, numbers, one.first, one.second.getZExtValue());
    return element->getPointerOperand();
}

place place_of(const DataLayout &layout, Value *pointer)
{
    place at;
    std::map<Value *, uint64_t> numbers;
    while (Value *inner = step(layout, pointer, at, numbers))
        pointer = inner;
    at.of.push_back({pointer, 0});
    for (const auto &one : numbers)
        if (one.second != 0)
            at.of.push_back({one.first, static_cast<int64_t>(one.second)});
    return at;
}

/* The shifts of checked addresses, by what they have in common with others, in the order of dominance. */
class shifts
{
  public:
    shifts(Function &function, DominatorTree &tree) : layout(function.getParent()->getDataLayout()), tree(tree)
    {
    }
    /* Has a check use the shift of one that comes before it on each way, if there is such. */
    void share(const check &it);

  private:
    struct shifted {
        Instruction *shift;
        int64_t offset;
    };
    const DataLayout &layout;
    DominatorTree &tree;
    std::map<std::vector<std::pair<Value *, int64_t>>, std::vector<shifted>> known;
};

void shifts::share(const check &it)
{
    auto *number = dyn_cast<PtrToIntInst>(it.address);
    if (number == nullptr || number->getPointerAddressSpace() != 0)
        return;
    place at = place_of(layout, number->getPointerOperand());
    if (isa<Constant>(at.of[0].first))
        return;
    at.of[0].second = at.offset & 7;
    std::vector<shifted> &before = known[at.of];
    BasicBlock *block = it.shadow->getParent();
    while (!before.empty() && !tree.dominates(before.back().shift->getParent(), block))
        before.pop_back(); /* blocks come in such an order that it does not dominate any later one either */
    if (before.empty()) {
        before.push_back({it.shift, at.offset});
        return;
    }
    int64_t between = (at.offset - before.back().offset) / 8;
    if (between < -FARTHEST || between > FARTHEST)
        return;
    auto *old = cast<Instruction>(it.shadow->getPointerOperand());
    IRBuilder<> builder(it.shadow);
    Value *sum = builder.CreateAdd(before.back().shift, builder.getInt64(it.offset + static_cast<uint64_t>(between)));
    it.shadow->setOperand(0, builder.CreateIntToPtr(sum, old->getType()));
    RecursivelyDeleteTriviallyDeadInstructions(old);
}

void change_checks(Function &function, DominatorTree &tree)
{
    shifts before(function, tree);
    for (auto *node : depth_first(&tree)) {
        std::vector<check> checks;
        for (Instruction &instruction : *node->getBlock()) {
            auto *load = dyn_cast<LoadInst>(&instruction);
            check it;
            if (load != nullptr && read(load, it))
                checks.push_back(it);
        }
        for (const check &it : checks) {
            before.share(it);
            if (!function.hasOptSize()) /* it takes some bytes */
                load_again(it);
        }
    }
}

/* The report of the recorder that stands for a function; or null. */
Function *own_report(Module &module, const Function &function)
{
    StringRef name = function.getName().drop_front(strlen(REPORT_FRONT));
    if (!name.consume_back(REPORT_END) || function.arg_size() != 2)
        return nullptr;
    Type *word = function.getArg(0)->getType();
    FunctionType *type = FunctionType::get(Type::getVoidTy(module.getContext()), {word}, false);
    auto *own = dyn_cast<Function>(module.getOrInsertFunction((OWN_FRONT + name).str(), type).getCallee());
    if (own == nullptr || own->getFunctionType() != type || !own->isDeclaration())
        return nullptr;
    own->setCallingConv(CallingConv::PreserveAll);
    for (Attribute::AttrKind kind : {Attribute::Cold, Attribute::NoUnwind, Attribute::NonLazyBind})
        own->addFnAttr(kind);
    return own;
}

void report_to(Function *own, CallInst *call)
{
    IRBuilder<> builder(call);
    CallInst *made = builder.CreateCall(own, {call->getArgOperand(0)});
    made->setCallingConv(CallingConv::PreserveAll);
    made->setCannotMerge();
    call->eraseFromParent();
}

/* Whether something of it is to be changed. */
bool is_chosen(const Function &function)
{
    return !function.isDeclaration() && function.hasFnAttribute(Attribute::SanitizeAddress) && !function.hasOptNone();
}

/* Those of ranges stay, and are only said to be seldom called. */
void change_reports(Module &module, Function &function)
{
    Function *own = own_report(module, function);
    function.addFnAttr(Attribute::Cold);
    if (own == nullptr)
        return;
    for (User *user : make_early_inc_range(function.users())) {
        auto *call = dyn_cast<CallInst>(user);
        if (call != nullptr && call->getCalledOperand() == &function && is_chosen(*call->getFunction())
            && !call->hasOperandBundles())
            report_to(own, call);
    }
}
} // namespace

PreservedAnalyses cheaper_checks::run(Module &module, ModuleAnalysisManager &manager)
{
    std::vector<Function *> reports;
    for (Function &function : module)
        if (is_report(function))
            reports.push_back(&function);
    if (!is_for_x86_64(module) || reports.empty())
        return PreservedAnalyses::all();
    auto &functions = manager.getResult<FunctionAnalysisManagerModuleProxy>(module).getManager();
    for (Function &function : module)
        if (is_chosen(function))
            change_checks(function, functions.getResult<DominatorTreeAnalysis>(function));
    for (Function *report : reports)
        change_reports(module, *report);
    return PreservedAnalyses::none();
}
