// Anyone reads a public document, and the group of its readers reads any other.
@id("readers")
permit(principal, action == Docs::Action::"read", resource)
when { resource.public || principal in resource.readers };

// The owner does all with a document.
@id("owner")
permit(principal, action, resource)
when { resource.owner == principal };

// Editors read and edit what lies in the folder of drafts, at any depth.
@id("drafts")
permit(
    principal in Docs::Group::"editors",
    action in [Docs::Action::"read", Docs::Action::"edit"],
    resource in Docs::Folder::"drafts"
);

// Nobody who is suspended does anything.
@id("suspended")
forbid(principal, action, resource)
when { principal has suspended && principal.suspended };

// A document is shared with groups of the staff alone.
@id("within-staff")
forbid(principal, action == Docs::Action::"share", resource)
unless { context.with in Docs::Group::"staff" };
