// Not everyone has a grade: the validator wants `principal has grade` before it is asked for.
@id("senior")
permit(principal, action, resource)
when { principal.grade >= 3 };

// The schema declares no such type.
@id("strangers")
forbid(principal is Visitor, action, resource);

@id("keeper")
permit(principal, action, resource)
when { resource.keeper == principal };
