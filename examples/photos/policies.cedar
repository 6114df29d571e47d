// The family, with all groups in it, may view and comment what lies in the album of the summer.
@id("family-sees-summer")
permit(
    principal in Group::"family",
    action in [Action::"view", Action::"comment"],
    resource in Album::"summer"
);

// Its owner may do anything with it.
@id("owner")
permit(principal == User::"alice", action, resource in Album::"summer");

// Guests never comment.
@id("guests-are-quiet")
forbid(principal in Group::"guests", action == Action::"comment", resource is Photo);

// The family may download photos of the album too, but no one who is also a guest.
@id("family-downloads")
permit(principal in Group::"family", action == Action::"download", resource is Photo in Album::"summer")
unless { principal in Group::"guests" };
