// Viewers of a list may see it.
@id("viewers")
permit(principal, action == Action::"GetList", resource)
when { principal in resource.viewers };

// Editors may read a list, too.
@id("editors")
permit(principal, action in [Action::"ReadList", Action::"UpdateList"], resource)
when { principal in resource.editors };

// Interns delete no tasks.
@id("editors")
forbid(principal in Team::"interns", action == Action::"DeleteTask", resource);
