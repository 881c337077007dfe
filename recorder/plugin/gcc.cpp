/* A plugin of GCC's. After the pass that puts in AddressSanitizer's checks comes one that adds what it leaves out:

   - of parts of complex numbers, and of objects read as another type;
   - of intrinsics that are functions of the compiler's (intrinsics.cpp), and of some others of its functions;
   - of functions of the C library that later passes replace by loads and stores, as a memcmp of few bytes: these stay
     calls, which have checks;
   - of what may have been freed since the last check (keep_apart).

   What has no checks all the same goes into the object, in lines of a section that links keep: how many functions were
   compiled without any, by an attribute, and intrinsics that are not known. The wrapper has it from there (taken.c).

   Called: by GCC, in its one thread; no lock. */
#include "plugin/checks.hpp"

#include <cstdio>

#include <context.h>
#include <diagnostic-core.h>
#include <cgraph.h>
#include <output.h>
#include <plugin-version.h>
#include <tree-cfg.h>
#include <tree-pass.h>

#include "made_for.h"
#include "plugin/plugin.h"
#include "environment/link_note.h"

#define SHOWN __attribute__((visibility("default")))

extern "C" {
SHOWN extern int plugin_is_GPL_compatible;
SHOWN int plugin_init(plugin_name_args *arguments, plugin_gcc_version *running);
}

int plugin_is_GPL_compatible;

#define TEXT_OF(number) #number
#define VERSION_OF(major, minor, patch) TEXT_OF(major) "." TEXT_OF(minor) "." TEXT_OF(patch)

/* By this the wrapper knows the compiler (wrapper/plugin.c). */
__attribute__((used)) static const char made_for[] = PLUGIN_MADE_FOR "\0" VERSION_OF(
    GCCPLUGIN_VERSION_MAJOR, GCCPLUGIN_VERSION_MINOR, GCCPLUGIN_VERSION_PATCHLEVEL) "\0" CONFIGURED;

void check_before(gimple_stmt_iterator *at, const range &it)
{
    location_t place = gimple_location(gsi_stmt(*at));
    gimple_seq before = NULL;
    bool is_constant = TREE_CODE(it.length) == INTEGER_CST;
    unsigned HOST_WIDE_INT size = is_constant ? tree_to_uhwi(it.length) : 0;
    int flags = (it.direction == STORE ? ASAN_CHECK_STORE : 0) | (is_constant ? ASAN_CHECK_NON_ZERO_LEN : 0);
    if (is_constant && size == 0)
        return;
    /* By one load of the shadow. */
    if (pow2p_hwi(size) && size <= 16 && (it.alignment >= size || (size == 16 && it.alignment >= 8)))
        flags |= ASAN_CHECK_SCALAR_ACCESS;
    tree start = force_gimple_operand(unshare_expr(it.start), &before, true, NULL_TREE);
    if (TREE_CODE(start) != SSA_NAME) {
        tree name = make_ssa_name(TREE_TYPE(start));
        gimple_seq_add_stmt(&before, gimple_build_assign(name, start));
        start = name;
    }
    gcall *check = gimple_build_call_internal(IFN_ASAN_CHECK, 4, build_int_cst(integer_type_node, flags), start,
                                              it.length, build_int_cst(integer_type_node, it.alignment));
    gimple_seq_add_stmt(&before, check);
    annotate_all_with_location(before, place);
    gsi_insert_seq_before(at, before, GSI_SAME_STMT);
}

namespace {

/* The notes on the object, once each. */
struct said {
    hash_set<tree> functions; /* without checks, that were counted */
    struct file {
        const char *name;
        unsigned count;
    };
    auto_vec<file> files; /* where these are */
    auto_vec<char *> lines;
} *said;

/* GCC marks the body of a lambda as made by itself, and makes no other function of this name. */
bool is_lambda(tree function)
{
    tree name = DECL_NAME(function);
    return name != NULL_TREE && strcmp(IDENTIFIER_POINTER(name), "operator()") == 0;
}

/* A function that GCC has made of another one is that, and all others that it makes are nobody's. */
void count_function(tree made)
{
    tree function = DECL_ORIGIN(made);
    const char *name = lbasename(DECL_SOURCE_FILE(function));
    if ((DECL_ARTIFICIAL(function) && !is_lambda(function)) || in_system_header_at(DECL_SOURCE_LOCATION(function))
        || said->functions.add(function))
        return;
    for (struct said::file &it : said->files) {
        if (strcmp(it.name, name) == 0) {
            it.count++;
            return;
        }
    }
    said->files.safe_push({name, 1});
}

/* By the file of the function into which it was inlined. */
void say_unknown(const char *intrinsic)
{
    const char *file = lbasename(DECL_SOURCE_FILE(DECL_ORIGIN(current_function_decl)));
    char *line = xasprintf("accesses of %s in %s", intrinsic, file);
    for (const char *it : said->lines)
        if (strcmp(it, line) == 0)
            return;
    said->lines.safe_push(line);
}

/* The part of the assembly that says it. */
void write_said(void *, void *)
{
    for (const struct said::file &it : said->files)
        said->lines.safe_push(xasprintf("%u function%s of %s (no_sanitize)", it.count, it.count == 1 ? "" : "s",
                                        it.name));
    if (said->lines.is_empty() || asm_out_file == NULL)
        return;
    switch_to_section(get_section(LINK_NOTE_LINES, SECTION_DEBUG, NULL));
    for (const char *it : said->lines)
        assemble_string(it, strlen(it) + 1);
}

/* Whether a variable can be accessed at any time: GCC leaves checks of these out, too. */
bool is_always_there(tree base, tree offset, poly_int64 from, poly_int64 size)
{
    poly_int64 whole;
    if (SSA_VAR_P(base) && TREE_CODE(base) != VAR_DECL)
        return true;
    if (TREE_CODE(base) != VAR_DECL)
        return !(TREE_CODE(base) == MEM_REF || TREE_CODE(base) == TARGET_MEM_REF);
    if (offset != NULL_TREE || DECL_SIZE(base) == NULL_TREE || !poly_int_tree_p(DECL_SIZE(base), &whole)
        || !known_subrange_p(from, size, 0, whole))
        return false;
    if (DECL_THREAD_LOCAL_P(base) || (TREE_STATIC(base) && !DECL_EXTERNAL(base)))
        return true;
    return !TREE_STATIC(base) && !DECL_EXTERNAL(base) && !TREE_ADDRESSABLE(base);
}

/* GCC's pass looks at no reference of these kinds. */
void check_reference(gimple_stmt_iterator *at, tree reference, direction way)
{
    poly_int64 size, from;
    tree offset, type = TREE_TYPE(reference);
    machine_mode mode;
    int is_unsigned, is_reversed, is_volatile = 0;
    tree_code code = TREE_CODE(reference);
    if (code != REALPART_EXPR && code != IMAGPART_EXPR && code != VIEW_CONVERT_EXPR && code != ARRAY_RANGE_REF)
        return;
    HOST_WIDE_INT bytes = int_size_in_bytes(type);
    tree base = get_inner_reference(reference, &size, &from, &offset, &mode, &is_unsigned, &is_reversed, &is_volatile);
    if (bytes <= 0 || maybe_ne(size, bytes * BITS_PER_UNIT) || !multiple_p(from, BITS_PER_UNIT)
        || !ADDR_SPACE_GENERIC_P(TYPE_ADDR_SPACE(TREE_TYPE(base))) || is_always_there(base, offset, from, size))
        return;
    check_before(at, range{build_fold_addr_expr(reference), build_int_cst(pointer_sized_int_node, bytes), way,
                           get_object_alignment(reference) / BITS_PER_UNIT});
}

/* Functions that passes after this one may make accesses of. */
const built_in_function replaced[] = {BUILT_IN_MEMCMP,  BUILT_IN_BCMP,   BUILT_IN_STRCMP,
                                      BUILT_IN_STRNCMP, BUILT_IN_STPCPY};

/* Its first argument becomes a number, which is passed as a pointer is: compilers leave a function alone that is called
   with what it does not take. */
void keep_call(gimple_stmt_iterator *at)
{
    gcall *statement = as_a<gcall *>(gsi_stmt(*at));
    for (built_in_function it : replaced) {
        if (!gimple_call_builtin_p(statement, it))
            continue;
        gimple_seq before = NULL;
        tree number = gimple_convert(&before, gimple_location(statement), pointer_sized_int_node,
                                     gimple_call_arg(statement, 0));
        if (before != NULL)
            gsi_insert_seq_before(at, before, GSI_SAME_STMT);
        gimple_call_set_arg(statement, 0, number);
        update_stmt(statement);
        return;
    }
}

/* Functions of the compiler's whose accesses by this argument its pass does not know. */
const struct known {
    built_in_function function;
    unsigned argument, size;
    direction way;
} known[] = {
    {BUILT_IN_ATOMIC_TEST_AND_SET, 0, 1, STORE},        {BUILT_IN_ATOMIC_CLEAR, 0, 1, STORE},
    {BUILT_IN_ATOMIC_COMPARE_EXCHANGE_1, 1, 1, LOAD},   {BUILT_IN_ATOMIC_COMPARE_EXCHANGE_2, 1, 2, LOAD},
    {BUILT_IN_ATOMIC_COMPARE_EXCHANGE_4, 1, 4, LOAD},   {BUILT_IN_ATOMIC_COMPARE_EXCHANGE_8, 1, 8, LOAD},
    {BUILT_IN_ATOMIC_COMPARE_EXCHANGE_16, 1, 16, LOAD}, {BUILT_IN_SETJMP_SETUP, 0, 5 * sizeof(void *), STORE},
};

void check_known(gimple_stmt_iterator *at)
{
    gcall *statement = as_a<gcall *>(gsi_stmt(*at));
    for (const struct known &it : known)
        if (gimple_call_builtin_p(statement, it.function))
            check_before(at, range{gimple_call_arg(statement, it.argument),
                                   build_int_cst(pointer_sized_int_node, it.size), it.way, 1});
}

void check_statement(gimple_stmt_iterator *at)
{
    gimple *statement = gsi_stmt(*at);
    if (gimple_assign_single_p(statement))
        check_reference(at, gimple_assign_rhs1(statement), LOAD);
    if (gimple_assign_single_p(statement))
        check_reference(at, gimple_assign_lhs(statement), STORE);
    if (!is_gimple_call(statement))
        return;
    if (gimple_call_lhs(statement) != NULL_TREE)
        check_reference(at, gimple_call_lhs(statement), STORE);
    check_known(at);
    keep_call(at);
    tree function = gimple_call_fndecl(statement);
    if (function == NULL_TREE || !fndecl_built_in_p(function, BUILT_IN_MD))
        return;
    const char *unknown = check_intrinsic(at);
    if (unknown != NULL)
        say_unknown(unknown);
}

/* GCC leaves a check out that repeats one, until a call that may free. After it another thread may have freed too, once
   there was an atomic, an asm, a volatile access, or a call of a function with any of these. So after each of them
   stands a call of no function before GCC's pass puts in its checks, and before the one that expands them. It has no
   operands, and is taken away again at once. */
const char APART[] = "asancol.apart";

tree make_apart()
{
    tree function = build_fn_decl(APART, build_function_type_list(void_type_node, NULL_TREE));
    TREE_READONLY(function) = 1;
    TREE_NOTHROW(function) = 1;
    return function;
}

bool is_apart(gimple *statement, tree name)
{
    tree function = is_gimple_call(statement) ? gimple_call_fndecl(statement) : NULL_TREE;
    return function != NULL_TREE && DECL_NAME(function) == name;
}

/* Whether another thread's free may be ordered by it. */
bool is_between(gimple *statement)
{
    if (gimple_code(statement) == GIMPLE_ASM || gimple_has_volatile_ops(statement))
        return true;
    if (!is_gimple_call(statement) || gimple_vdef(statement) == NULL_TREE)
        return false;
    if (gimple_call_internal_p(statement))
        return strncmp(internal_fn_name(gimple_call_internal_fn(statement)), "ATOMIC", strlen("ATOMIC")) == 0;
    if (!gimple_call_builtin_p(statement, BUILT_IN_NORMAL))
        return true;
    const char *name = IDENTIFIER_POINTER(DECL_NAME(gimple_call_fndecl(statement)));
    return strstr(name, "__atomic_") != NULL || strstr(name, "__sync_") != NULL;
}

void keep_apart(function *function)
{
    basic_block block;
    tree apart = make_apart();
    FOR_EACH_BB_FN(block, function) {
        for (gimple_stmt_iterator at = gsi_start_bb(block); !gsi_end_p(at); gsi_next(&at)) {
            gimple *statement = gsi_stmt(at);
            if (!is_between(statement))
                continue;
            if (stmt_ends_bb_p(statement))
                gsi_insert_before(&at, gimple_build_call(apart, 0), GSI_SAME_STMT);
            else
                gsi_insert_after(&at, gimple_build_call(apart, 0), GSI_NEW_STMT);
        }
    }
}

void take_apart(function *function)
{
    basic_block block;
    tree name = get_identifier(APART);
    FOR_EACH_BB_FN(block, function) {
        for (gimple_stmt_iterator at = gsi_start_bb(block); !gsi_end_p(at);) {
            if (is_apart(gsi_stmt(at), name))
                gsi_remove(&at, true);
            else
                gsi_next(&at);
        }
    }
}

const pass_data data = {GIMPLE_PASS, "asancol", OPTGROUP_NONE, TV_NONE, PROP_ssa | PROP_cfg | PROP_gimple_leh,
                        0,           0,         0,             TODO_update_ssa};

class checks : public gimple_opt_pass {
public:
    checks(bool is_of_all) : gimple_opt_pass(data, g), is_of_all(is_of_all) {}

    opt_pass *clone() override { return new checks(is_of_all); }
    /* GCC's pass exists twice; the second is for unoptimised code. */
    bool gate(function *) override { return (flag_sanitize & SANITIZE_ADDRESS) != 0 && (is_of_all || !optimize); }

    unsigned execute(function *function) override
    {
        basic_block block;
        take_apart(function);
        if (!sanitize_flags_p(SANITIZE_ADDRESS)) {
            count_function(function->decl);
            return 0;
        }
        FOR_EACH_BB_FN(block, function)
            for (gimple_stmt_iterator at = gsi_start_bb(block); !gsi_end_p(at); gsi_next(&at))
                check_statement(&at);
        return 0;
    }

private:
    bool is_of_all;
};

const pass_data apart_data = {GIMPLE_PASS, "asancol_apart", OPTGROUP_NONE, TV_NONE, PROP_ssa | PROP_cfg, 0, 0, 0, 0};

/* Before a pass, and after one. */
class apart : public gimple_opt_pass {
public:
    apart(bool is_before) : gimple_opt_pass(apart_data, g), is_before(is_before) {}

    opt_pass *clone() override { return new apart(is_before); }
    bool gate(function *) override { return sanitize_flags_p(SANITIZE_ADDRESS); }

    unsigned execute(function *function) override
    {
        if (is_before)
            keep_apart(function);
        else
            take_apart(function);
        return 0;
    }

private:
    bool is_before;
};

void add(opt_pass *pass, const char *name, pass_positioning_ops place)
{
    register_pass_info info = {pass, name, 0, place};
    register_callback("asancol", PLUGIN_PASS_MANAGER_SETUP, NULL, &info);
}

bool has_argument(const plugin_name_args *arguments, const char *key)
{
    for (int i = 0; i < arguments->argc; i++)
        if (strcmp(arguments->argv[i].key, key) == 0)
            return true;
    return false;
}
}

/* In another compiler than that which it was made for it does nothing: no compile shall fail of it. */
int plugin_init(plugin_name_args *arguments, plugin_gcc_version *running)
{
    if (!plugin_default_version_check(running, &gcc_version))
        return 0;
    said = new struct said;
    add(new apart(true), "asan", PASS_POS_INSERT_BEFORE);
    add(new checks(true), "asan", PASS_POS_INSERT_AFTER);
    add(new apart(true), "asan0", PASS_POS_INSERT_BEFORE);
    add(new checks(false), "asan0", PASS_POS_INSERT_AFTER);
    add(new apart(true), "sanopt", PASS_POS_INSERT_BEFORE);
    add(new apart(false), "sanopt", PASS_POS_INSERT_AFTER);
    if (!has_argument(arguments, PLUGIN_PLAIN))
        add_expansion();
    register_callback("asancol", PLUGIN_FINISH_UNIT, write_said, NULL);
    return 0;
}
