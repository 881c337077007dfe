/* Intrinsics that are functions of the compiler's with a pointer: GCC's pass sees no access in them.

   Called: by gcc.cpp, in GCC's one thread; no lock. */
#include "plugin/checks.hpp"

#include <cstring>

namespace {

/* What a function accesses at its pointer. Of all that have a mask the second argument is a vector, with as many
   elements: it is the mask, or this is a number, the last argument. */
enum shape {
    NOTHING, /* it only names a place, as a prefetch does */
    POINTEE, /* what the type of the pointer says */
    WHOLE,   /* the vector that it returns, or that it is given; of what has a mask the LANES */
    FIRST,   /* the first element, if the mask has it */
    LANES,   /* the elements that the mask has, as wide as those of the vector */
    NARROW,  /* these, of which all are as wide as what the type of the pointer says */
    PACKED,  /* as many elements as the mask has, one after the other */
    INDEXED, /* the elements that the mask has, each at its index */
    BYTES    /* the number in the row */
};

struct row {
    const char *name;
    shape kind;
    direction way;
    unsigned argument, size;
};

const row rows[] = {
#define INTRINSIC(name, shape, direction, argument, size) {name, shape, direction, argument, size},
#include "plugin/intrinsics.def"
#undef INTRINSIC
};

const char FRONT[] = "__builtin_ia32_";

tree constant(unsigned HOST_WIDE_INT number)
{
    return build_int_cstu(pointer_sized_int_node, number);
}

unsigned HOST_WIDE_INT size_of(tree type)
{
    return tree_to_uhwi(TYPE_SIZE_UNIT(type));
}

unsigned HOST_WIDE_INT lanes_of(tree vector)
{
    return TYPE_VECTOR_SUBPARTS(vector).to_constant();
}

/* A call, and what its checks need before it. */
class call {
public:
    call(gimple_stmt_iterator *at, const row &it)
        : at(at), statement(as_a<gcall *>(gsi_stmt(*at))), of(it), before(NULL)
    {
    }

    void check_all();

private:
    gimple_stmt_iterator *at;
    gcall *statement;
    const row &of;
    gimple_seq before;

    tree argument(unsigned number) const { return gimple_call_arg(statement, number); }
    tree last() const { return argument(gimple_call_num_args(statement) - 1); }
    tree type() const { return TREE_TYPE(gimple_call_fndecl(statement)); }
    tree pointee() const;
    bool has_mask() const;
    tree number_of(tree value);
    tree both(tree_code code, tree one, tree other);
    tree lane(tree vector, unsigned HOST_WIDE_INT number, bool is_unsigned);
    tree has_lane(tree mask, unsigned HOST_WIDE_INT number);
    unsigned HOST_WIDE_INT size_of_lane() const;
    void check(tree start, tree length);
    void check_lanes(unsigned HOST_WIDE_INT count);
    void check_indexed();
};

/* By the function's declaration: what it is given may be of another type. */
tree call::pointee() const
{
    tree types = TYPE_ARG_TYPES(type());
    for (unsigned i = 0; i < of.argument; i++)
        types = TREE_CHAIN(types);
    return TREE_TYPE(TREE_VALUE(types));
}

bool call::has_mask() const
{
    return strstr(IDENTIFIER_POINTER(DECL_NAME(gimple_call_fndecl(statement))), "_mask") != NULL;
}

tree call::number_of(tree value)
{
    return gimple_convert(&before, gimple_location(statement), pointer_sized_int_node, value);
}

tree call::both(tree_code code, tree one, tree other)
{
    return gimple_build(&before, gimple_location(statement), code, pointer_sized_int_node, one, other);
}

/* An element of a vector as a number. */
tree call::lane(tree vector, unsigned HOST_WIDE_INT number, bool is_unsigned)
{
    location_t place = gimple_location(statement);
    unsigned HOST_WIDE_INT width = BITS_PER_UNIT * size_of(TREE_TYPE(TREE_TYPE(vector)));
    tree element = build_nonstandard_integer_type(width, is_unsigned);
    tree numbers = build_vector_type(element, lanes_of(TREE_TYPE(vector)));
    tree same = gimple_build(&before, place, VIEW_CONVERT_EXPR, numbers, vector);
    return number_of(gimple_build(&before, place, BIT_FIELD_REF, element, same, bitsize_int(width),
                                  bitsize_int(number * width)));
}

/* Whether a mask has an element, as 1 or 0: vectors say it by signs. */
tree call::has_lane(tree mask, unsigned HOST_WIDE_INT number)
{
    if (!VECTOR_TYPE_P(TREE_TYPE(mask)))
        return both(BIT_AND_EXPR, both(RSHIFT_EXPR, number_of(mask), constant(number)), constant(1));
    unsigned HOST_WIDE_INT width = BITS_PER_UNIT * size_of(TREE_TYPE(TREE_TYPE(mask)));
    return both(RSHIFT_EXPR, lane(mask, number, true), constant(width - 1));
}

void call::check(tree start, tree length)
{
    if (before != NULL)
        gsi_insert_seq_before(at, before, GSI_SAME_STMT);
    before = NULL;
    check_before(at, range{start, length, of.way, 1});
}

unsigned HOST_WIDE_INT call::size_of_lane() const
{
    tree vector = TREE_TYPE(argument(1));
    return of.kind == NARROW ? size_of(pointee()) / lanes_of(vector) : size_of(TREE_TYPE(vector));
}

void call::check_lanes(unsigned HOST_WIDE_INT count)
{
    tree mask = VECTOR_TYPE_P(TREE_TYPE(last())) || POINTER_TYPE_P(TREE_TYPE(last())) ? argument(1) : last();
    tree start = number_of(argument(of.argument)), total = constant(0);
    unsigned HOST_WIDE_INT size = size_of_lane();
    for (unsigned HOST_WIDE_INT i = 0; i < count; i++) {
        tree length = both(MULT_EXPR, has_lane(mask, i), constant(size));
        if (of.kind == PACKED)
            total = both(PLUS_EXPR, total, length);
        else
            check(both(PLUS_EXPR, start, constant(i * size)), length);
    }
    if (of.kind == PACKED)
        check(start, total);
}

/* Arguments of a gather: the source, the base, indices, the mask, and the scale. Arguments of a scatter: the base, the
   mask, indices, the source, and the scale. */
void call::check_indexed()
{
    tree data = TREE_TYPE(argument(of.way == LOAD ? 0 : 3)), mask = argument(of.way == LOAD ? 3 : 1);
    tree indices = argument(2), start = number_of(argument(of.argument)), scale = number_of(last());
    unsigned HOST_WIDE_INT count = MIN(lanes_of(data), lanes_of(TREE_TYPE(indices)));
    for (unsigned HOST_WIDE_INT i = 0; i < count; i++) {
        tree length = both(MULT_EXPR, has_lane(mask, i), constant(size_of(TREE_TYPE(data))));
        check(both(PLUS_EXPR, start, both(MULT_EXPR, lane(indices, i, false), scale)), length);
    }
}

void call::check_all()
{
    tree vector = of.way == LOAD ? TREE_TYPE(type()) : TREE_TYPE(last()), start = argument(of.argument);
    if (of.kind == NOTHING)
        return;
    if (of.kind == INDEXED)
        check_indexed();
    else if (of.kind == FIRST)
        check_lanes(1);
    else if (of.kind == POINTEE)
        check(start, constant(size_of(pointee())));
    else if (of.kind == BYTES)
        check(start, constant(of.size));
    else if (of.kind == WHOLE && !has_mask())
        check(start, constant(size_of(vector)));
    else
        check_lanes(lanes_of(TREE_TYPE(argument(1))));
}

bool has_pointer(const gcall *statement)
{
    for (unsigned i = 0; i < gimple_call_num_args(statement); i++)
        if (POINTER_TYPE_P(TREE_TYPE(gimple_call_arg(statement, i))))
            return true;
    return false;
}
}

const char *check_intrinsic(gimple_stmt_iterator *at)
{
    gcall *statement = as_a<gcall *>(gsi_stmt(*at));
    const char *name = IDENTIFIER_POINTER(DECL_NAME(gimple_call_fndecl(statement))), *found = NULL;
    if (strncmp(name, FRONT, strlen(FRONT)) != 0 || !has_pointer(statement))
        return NULL;
    for (const row &it : rows) {
        if (found == NULL ? strncmp(name + strlen(FRONT), it.name, strlen(it.name)) != 0 : strcmp(found, it.name) != 0)
            continue;
        found = it.name;
        call(at, it).check_all();
    }
    return found == NULL ? name : NULL;
}
