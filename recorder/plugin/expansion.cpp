/* Makes the checks of accesses of 1, 2, 4, 8 and 16 bytes, which GCC would make next, with fewer instructions where the
   access is good:

   - the shadow is first compared with 0, and a partial granule is looked at aside, where the shadow is read again;
   - the call for a bad access keeps all registers (interface/kept.c), so no value has to be elsewhere for its sake;
   - an access at a constant distance from one that was checked on the way, and as far into its granule, shares the
     shift of that address: (p + 8 k) >> 3 is (p >> 3) + k, unless p + 8 k wraps. There the access at p has ended the
     process.

   Each check stays at its place. GCC makes those of other sizes, and all of a function that can't have the call.

   Called: by GCC, in its one thread; no lock. */
#include "plugin/checks.hpp"

#include <cgraph.h>
#include <context.h>
#include <dominance.h>
#include <tree-dfa.h>
#include <tree-pass.h>

#include "plugin/plugin.h"

#if defined MASK_NO_RED_ZONE && defined __x86_64__

namespace {

enum { GRANULE = 8, GRANULE_BITS = 3 };

struct check {
    gcall *call;
    tree address;
    HOST_WIDE_INT size;
    bool is_store;
    location_t place;
};

/* Of this statement. False: it is none, or not of one look at the shadow. */
bool read_check(gimple *statement, check &it)
{
    if (!gimple_call_internal_p(statement, IFN_ASAN_CHECK))
        return false;
    gcall *call = as_a<gcall *>(statement);
    HOST_WIDE_INT flags = tree_to_shwi(gimple_call_arg(call, 0));
    tree length = gimple_call_arg(call, 2);
    if (!(flags & ASAN_CHECK_SCALAR_ACCESS) || TREE_CODE(length) != INTEGER_CST)
        return false;
    it = {call, gimple_call_arg(call, 1), tree_to_shwi(length), (flags & ASAN_CHECK_STORE) != 0, gimple_location(call)};
    return pow2p_hwi(it.size) && it.size <= 2 * GRANULE;
}

/* An address, as one from which it has a constant distance. */
struct origin {
    tree root;
    HOST_WIDE_INT distance;
};

/* The address of which this one is made. False: there is none. */
bool step_back(origin &it)
{
    poly_int64 more;
    HOST_WIDE_INT distance = 0;
    gimple *made = TREE_CODE(it.root) == SSA_NAME ? SSA_NAME_DEF_STMT(it.root) : NULL;
    if (made == NULL || !is_gimple_assign(made))
        return false;
    tree_code code = gimple_assign_rhs_code(made);
    tree from = gimple_assign_rhs1(made);
    if (code == ADDR_EXPR) {
        tree base = get_addr_base_and_unit_offset(TREE_OPERAND(from, 0), &more);
        if (base == NULL_TREE || TREE_CODE(base) != MEM_REF || !(more + mem_ref_offset(base).force_shwi())
                                                                    .is_constant(&distance))
            return false;
        from = TREE_OPERAND(base, 0);
    } else if (code == POINTER_PLUS_EXPR && TREE_CODE(gimple_assign_rhs2(made)) == INTEGER_CST) {
        distance = int_cst_value(gimple_assign_rhs2(made));
    } else if (code != SSA_NAME && !(CONVERT_EXPR_CODE_P(code) && POINTER_TYPE_P(TREE_TYPE(from)))) {
        return false;
    }
    if (TREE_CODE(from) != SSA_NAME || SSA_NAME_OCCURS_IN_ABNORMAL_PHI(from))
        return false;
    it = {from, it.distance + distance};
    return true;
}

origin origin_of(tree address)
{
    enum { MOST_STEPS = 4, FARTHEST = 0x8000 };
    origin it = {address, 0};
    for (int i = 0; optimize && i < MOST_STEPS && step_back(it); i++)
        if (it.distance < -FARTHEST || it.distance > FARTHEST)
            return {address, 0};
    return it;
}

HOST_WIDE_INT rest_of(HOST_WIDE_INT distance)
{
    return distance & (GRANULE - 1);
}

/* The shift of an address, that was made for its check. */
struct shared {
    origin from;
    tree shift;
};

/* Code that runs from its start to its end, with no call in it. A shift that was made there may still be in a register
   at its end, and in another stretch that follows this one alone. */
struct stretch {
    const stretch *before; /* null: it begins after a call, or may follow several */
    auto_vec<shared> known;
};

const shared *find_shared(const stretch *at, const origin &from)
{
    enum { MOST_BEFORE = 8 };
    for (int i = 0; at != NULL && i < MOST_BEFORE; i++, at = at->before)
        for (const shared &it : at->known)
            if (it.from.root == from.root && rest_of(it.from.distance) == rest_of(from.distance))
                return &it;
    return NULL;
}

/* Types of pointers to a byte of shadow, and to two. */
tree pointers[2];
const ggc_root_tab roots[] = {{pointers, 2, sizeof pointers[0], &gt_ggc_mx_tree_node, &gt_pch_nx_tree_node},
                              LAST_GGC_ROOT_TAB};

/* Nothing of the program is in the shadow. */
tree shadow_pointer(bool is_of_two)
{
    tree &made = pointers[is_of_two];
    if (made == NULL_TREE) {
        tree type = build_distinct_type_copy(is_of_two ? short_integer_type_node : signed_char_type_node);
        if (asan_shadow_set == -1)
            asan_shadow_set = new_alias_set();
        TYPE_ALIAS_SET(type) = asan_shadow_set;
        made = build_pointer_type(type);
    }
    return made;
}

/* Reads it; again, if the first reading is not to be kept for this. */
tree read_shadow(gimple_seq *to, const check &it, tree where, bool is_again)
{
    tree pointer = shadow_pointer(it.size > GRANULE);
    tree read = build2(MEM_REF, TREE_TYPE(pointer), gimple_convert(to, it.place, pointer, where),
                       build_int_cst(pointer, 0));
    TREE_THIS_VOLATILE(read) = is_again;
    gassign *statement = gimple_build_assign(make_ssa_name(TREE_TYPE(pointer)), read);
    gimple_seq_add_stmt(to, statement);
    return gimple_assign_lhs(statement);
}

/* Where the byte of shadow is. */
tree place_in_shadow(gimple_seq *to, const check &it, stretch *at)
{
    tree type = pointer_sized_int_node;
    origin from = origin_of(it.address);
    const shared *other = find_shared(at, from);
    HOST_WIDE_INT farther = other != NULL ? (from.distance - other->from.distance) / GRANULE : 0;
    tree shift = other != NULL ? other->shift : NULL_TREE;
    if (shift == NULL_TREE) {
        shift = gimple_build(to, it.place, RSHIFT_EXPR, type, gimple_convert(to, it.place, type, it.address),
                             build_int_cst(integer_type_node, GRANULE_BITS));
        at->known.safe_push({from, shift});
    }
    return gimple_build(to, it.place, PLUS_EXPR, type, shift, build_int_cst(type, SHADOW_BEGINS + farther));
}

/* The address anew, so that it need not be at hand where the access is good. */
tree address_aside(gimple_seq *to, const check &it)
{
    origin from = origin_of(it.address);
    tree root = gimple_convert(to, it.place, pointer_sized_int_node, from.root);
    return gimple_build(to, it.place, PLUS_EXPR, pointer_sized_int_node, root,
                        build_int_cst(pointer_sized_int_node, from.distance));
}

tree listed(const char *text, tree value)
{
    tree name = build_string(strlen(text) + 1, text);
    return build_tree_list(value != NULL_TREE ? build_tree_list(NULL_TREE, name) : NULL_TREE,
                           value != NULL_TREE ? value : name);
}

/* The program's own function may run there, and change memory (`memory`). By the slot, since one that the loader fills
   later would lead over code of its own, which keeps less. */
void call_report(gimple_seq *to, const check &it, tree address)
{
    char name[32], text[128];
    vec<tree, va_gc> *inputs = NULL, *clobbers = NULL;
    snprintf(name, sizeof name, "asancol_report_%s%d", it.is_store ? "store" : "load", (int)it.size);
    snprintf(text, sizeof text, "call\t{*%s@GOTPCREL(%%%%rip)|[QWORD PTR %s@GOTPCREL[rip]]}", name, name);
    vec_safe_push(inputs, listed("D", address));
    vec_safe_push(clobbers, listed("memory", NULL_TREE));
    gasm *report = gimple_build_asm_vec(ggc_strdup(text), inputs, NULL, clobbers, NULL);
    gimple_asm_set_volatile(report, true);
    gimple_seq_add_stmt(to, report);
}

/* Ends the block before `at`, which is in another then, and makes one aside for where this holds of the two. */
basic_block branch_aside(gimple_stmt_iterator *at, const check &it, tree_code code, tree one, tree other)
{
    basic_block aside, next;
    gimple_stmt_iterator end = create_cond_insert_point(at, true, false, true, &aside, &next);
    gcond *condition = gimple_build_cond(code, one, other, NULL_TREE, NULL_TREE);
    gimple_set_location(condition, it.place);
    gsi_insert_after(&end, condition, GSI_NEW_STMT);
    return aside;
}

void fill(basic_block block, gimple_seq with, const check &it)
{
    gimple_stmt_iterator at = gsi_start_bb(block);
    annotate_all_with_location(with, it.place);
    gsi_insert_seq_after(&at, with, GSI_CONTINUE_LINKING);
}

/* In a partial granule an access is bad if its last byte is not in it. */
void look_at_part(basic_block aside, const check &it, tree where)
{
    gimple_seq look = NULL, report = NULL;
    tree type = signed_char_type_node;
    tree address = address_aside(&look, it);
    tree last = gimple_build(&look, it.place, BIT_AND_EXPR, pointer_sized_int_node, address,
                             build_int_cst(pointer_sized_int_node, GRANULE - 1));
    last = gimple_build(&look, it.place, PLUS_EXPR, type, gimple_convert(&look, it.place, type, last),
                        build_int_cst(type, it.size - 1));
    tree count = gimple_convert(&look, it.place, type, read_shadow(&look, it, where, true));
    gimple *end = gimple_build_nop();
    gimple_seq_add_stmt(&look, end);
    fill(aside, look, it);
    gimple_stmt_iterator at = gsi_for_stmt(end);
    basic_block bad = branch_aside(&at, it, GE_EXPR, last, count);
    call_report(&report, it, address);
    fill(bad, report, it);
    gsi_remove(&at, true);
}

void expand(const check &it, stretch *in)
{
    gimple_stmt_iterator at = gsi_for_stmt(it.call);
    gimple_seq look = NULL, report = NULL;
    tree where = place_in_shadow(&look, it, in);
    tree shadow = read_shadow(&look, it, where, false);
    annotate_all_with_location(look, it.place);
    gsi_insert_seq_before(&at, look, GSI_SAME_STMT);
    basic_block aside = branch_aside(&at, it, NE_EXPR, shadow, build_int_cst(TREE_TYPE(shadow), 0));
    if (it.size < GRANULE) {
        look_at_part(aside, it, where);
    } else {
        call_report(&report, it, address_aside(&report, it));
        fill(aside, report, it);
    }
    at = gsi_for_stmt(it.call);
    unlink_stmt_vdef(it.call);
    gsi_remove(&at, true);
}

/* The checks of a function, each with the stretch that it is in: blocks come after those that lead to them alone. */
struct found {
    check it;
    stretch *in;
};

class finder {
public:
    auto_vec<found> all;

    explicit finder(function *of)
    {
        auto_vec<basic_block> blocks;
        calculate_dominance_info(CDI_DOMINATORS);
        blocks.safe_push(ENTRY_BLOCK_PTR_FOR_FN(of));
        for (unsigned i = 0; i < blocks.length(); i++) {
            basic_block block = blocks[i];
            look_at(block);
            for (basic_block it = first_dom_son(CDI_DOMINATORS, block); it != NULL;
                 it = next_dom_son(CDI_DOMINATORS, it))
                blocks.safe_push(it);
        }
    }

    ~finder()
    {
        for (stretch *it : stretches)
            delete it;
    }

private:
    auto_vec<stretch *> stretches;
    hash_map<basic_block, stretch *> last;

    stretch *begin(const stretch *before)
    {
        stretch *made = new stretch;
        made->before = before;
        stretches.safe_push(made);
        return made;
    }

    void look_at(basic_block block)
    {
        stretch **before = single_pred_p(block) ? last.get(single_pred(block)) : NULL;
        stretch *now = begin(before != NULL ? *before : NULL);
        for (gimple_stmt_iterator at = gsi_start_bb(block); !gsi_end_p(at); gsi_next(&at)) {
            found next = {{}, now};
            if (read_check(gsi_stmt(at), next.it))
                all.safe_push(next);
            else if (is_gimple_call(gsi_stmt(at)) && !gimple_call_internal_p(gsi_stmt(at)))
                now = begin(NULL);
        }
        last.put(block, now);
    }
};

/* Whether a call in a statement of assembly can stand there: with no red zone below the stack, with the slot near the
   code, with tables for walks (a leaf has no frame), and where no exception may come of it. */
bool can_call(function *of)
{
    return TARGET_NO_RED_ZONE && TYPE_PRECISION(ptr_type_node) == 64 && ix86_cmodel != CM_LARGE
           && ix86_cmodel != CM_LARGE_PIC && flag_asynchronous_unwind_tables && !of->can_throw_non_call_exceptions;
}

/* Whether checks are made inline, and the process goes on after a bad access. */
bool is_as_asked()
{
    const unsigned form = SANITIZE_KERNEL_ADDRESS | SANITIZE_USER_ADDRESS;
    return (flag_sanitize & flag_sanitize_recover & form) != 0
           && param_asan_instrumentation_with_call_threshold >= PLUGIN_NO_CALLS;
}

const pass_data data = {GIMPLE_PASS, "asancol_expansion", OPTGROUP_NONE, TV_NONE, PROP_ssa | PROP_cfg, 0, 0, 0,
                        TODO_update_ssa_only_virtuals};

class expansion : public gimple_opt_pass {
public:
    expansion() : gimple_opt_pass(data, g) {}

    opt_pass *clone() override { return new expansion; }
    bool gate(function *of) override { return sanitize_flags_p(SANITIZE_ADDRESS) && is_as_asked() && can_call(of); }

    unsigned execute(function *of) override
    {
        finder checks(of);
        for (const found &each : checks.all)
            expand(each.it, each.in);
        if (!checks.all.is_empty()) {
            free_dominance_info(CDI_DOMINATORS);
            free_dominance_info(CDI_POST_DOMINATORS);
        }
        return 0;
    }
};
}

void add_expansion()
{
    register_pass_info info = {new expansion, "sanopt", 1, PASS_POS_INSERT_BEFORE};
    target_flags |= MASK_NO_RED_ZONE;
    register_callback("asancol", PLUGIN_PASS_MANAGER_SETUP, NULL, &info);
    register_callback("asancol", PLUGIN_REGISTER_GGC_ROOTS, NULL, const_cast<ggc_root_tab *>(roots));
}

#else

void add_expansion()
{
}

#endif
