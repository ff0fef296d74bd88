"""Views. The schemes of a view are declarations like the ordinary ones, so their
faults come with the others, merged by place."""


def put_schemes(op, view, schemes):
    """Ordinary schemes, or those of a view."""
    if view is None:
        op.schemes = schemes
    else:
        op.views[view] = schemes
